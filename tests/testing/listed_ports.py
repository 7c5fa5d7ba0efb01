"""Checks the list of serial ports of the package for Python, with folders instead of /dev and
/sys."""

import errno
import os
import subprocess
import sys

import cases
import dgt
from wrong import wanted

DEVICES = ["ttyUSB10", "ttyS0", "ttyUSB1", "tty", "rfcomm0", "ttyUSB0", "ttyACM0"]
# Names in /dev/serial/by-id, and the device of each.
LINKS = [("usb-BB", "ttyUSB1"), ("usb-B", "ttyUSB1"), ("usb-gone", "ttyUSB7"),
         ("usb-A", "ttyACM0"), (".#usb-0", "ttyUSB0")]
# The folder of each port below the devices of /sys, as Linux has them: a port of ttyUSB has one of
# its own in that of its interface.
PLACES = {"ttyACM0": "usb1/1-1/1-1:1.0", "ttyUSB1": "usb1/1-2/1-2:1.0/ttyUSB1",
          "ttyUSB0": "usb1/1-3/1-3:1.0/ttyUSB0", "ttyUSB10": "platform/serial",
          "rfcomm0": "usb1/1-4/1-4:1.0/bluetooth/hci0/hci0:1"}
# What each USB device says of itself.
SAID = {
    "1-1": {"manufacturer": b"Maker\n", "product": b"A board\n", "serial": b"00001\n",
            "idVendor": b"1a2b\n", "idProduct": b"3c4d\n"},
    "1-2": {"product": b"\xc3\xa9\xff\x1b[2J\n", "serial": b"\n", "idVendor": b"0001\n",
            "idProduct": b"0002\n"},
    "1-3": {"idVendor": b"0003\n"},
    "1-4": {"product": b"Bluetooth\n", "idVendor": b"0005\n", "idProduct": b"0006\n"},
}
# What the list has, but for the folder: the path, vendor, product, serial number and both numbers.
RIGHT = [
    ("serial/by-id/usb-A", "Maker", "A board", "00001", "1a2b:3c4d"),
    ("serial/by-id/usb-B", None, "\xe9\ufffd?[2J", None, "0001:0002"),
    ("rfcomm0", None, None, None, None),
    ("ttyUSB0", None, None, None, "0003:?"),
    ("ttyUSB10", None, None, None, None),
]
NO_BOARD = "no board: plug it in, or name its port (no serial port of USB or Bluetooth)"
NONE = "no serial port of USB or Bluetooth (plug the board in)"


def plug_in(dev, sysfs):
    """Makes both folders."""
    for name in DEVICES:
        (dev / name).touch()
    for name, device in LINKS:
        (dev / "serial/by-id" / name).symlink_to(f"../../{device}")
    for name, place in PLACES.items():
        (sysfs / "devices" / place).mkdir(parents=True)
        (sysfs / "class/tty" / name).mkdir(parents=True)
        (sysfs / "class/tty" / name / "device").symlink_to(f"../../../devices/{place}")
    for device, files in SAID.items():
        for name, text in files.items():
            (sysfs / "devices/usb1" / device / name).write_bytes(text)


def printed(**folders):
    """The lines of `python -m dgt ports`, or what it ends with."""
    main = f"import dgt; dgt.serial_ports.main([], **{folders})"
    ran = subprocess.run([sys.executable, "-c", main], capture_output=True, text=True,
                         env=os.environ | {"PYTHONPATH": str(cases.ROOT / "bindings/python")})
    return ran.stderr.rstrip("\n") if ran.returncode else ran.stdout.splitlines()


class ListedPorts(cases.Case):
    def test_folders(self):
        dev, sysfs = self.folder / "dev", self.folder / "sys"
        folders = {"dev": str(dev), "sysfs": str(sysfs)}
        wanted("ports of no folder", (dgt.ports(**folders), printed(**folders)), ([], NONE))
        (dev / "serial/by-id").mkdir(parents=True)
        wanted("ports of an empty one", dgt.ports(**folders), [])
        plug_in(dev, sysfs)
        right = [dgt.SerialPort(f"{dev}/{name}", *said) for name, *said in RIGHT]
        wanted("ports", dgt.ports(**folders), right)
        lines = [" ".join([f"{dev}/{name}", *filter(None, said)]) for name, *said in RIGHT]
        wanted("lines", printed(**folders), lines)

    def test_only_board(self):
        """The only likely board is found. What is found otherwise is in the error."""
        dev, sysfs = self.folder / "dev", self.folder / "sys"
        usb = sysfs / "devices/usb1"

        def found():
            try:
                return dgt.find_port(dev=str(dev), sysfs=str(sysfs))
            except OSError as fault:
                return fault.errno, fault.strerror

        wanted("no port", found(), (errno.ENODEV, NO_BOARD))
        (dev / "serial/by-id").mkdir(parents=True)
        plug_in(dev, sysfs)
        others = "; ".join(map(str, dgt.ports(dev=str(dev), sysfs=str(sysfs))))
        unlikely = f"no port is likely a board's. If one of these is, name it: {others}"
        wanted("no board", found(), (errno.ENODEV, unlikely))
        (usb / "1-3/product").write_text("DGT Board")
        wanted("a board", found(), f"{dev}/ttyUSB0")
        (usb / "1-1/idVendor").write_text("0403")
        (usb / "1-1/idProduct").write_text("6001")
        wanted("two boards", found(), (
            errno.ENOTUNIQ, f"several boards: name the port of one of them: {dev}/serial/by-id/"
            f"usb-A Maker A board 00001 0403:6001; {dev}/ttyUSB0 DGT Board 0003:?"))

    def test_machine(self):
        for port in dgt.ports():
            wanted(f"whether {port.path} is there", os.path.exists(port.path), True)
