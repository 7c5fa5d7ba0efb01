"""The serial ports of this machine, and `python -m dgt ports`, which lists them."""

import argparse
import errno
import os
import sys
from collections.abc import Sequence
from dataclasses import dataclass
from pathlib import Path

_KINDS = ("rfcomm", "ttyACM", "ttyUSB")


@dataclass(frozen=True, slots=True)
class SerialPort:
    """A serial port that may be a board's, with its USB device: the names of vendor and product,
    the serial number, and the numbers of vendor and product, such as `"1234:abcd"`. Each is `None`
    if unknown. All are `None` for a Bluetooth port."""

    path: str
    """The name to open it by, as in `follow(port.path)`."""
    vendor: str | None = None
    product: str | None = None
    serial: str | None = None
    usb_id: str | None = None

    def __str__(self) -> str:
        """One line: the path, and the known names and numbers."""
        return " ".join(filter(None, (self.path, self.vendor, self.product, self.serial,
                                      self.usb_id)))


def _names(folder: str) -> list[str]:
    """The sorted names in a folder. A name with a dot is a link that is being made."""
    try:
        return sorted(name for name in os.listdir(folder) if not name.startswith("."))
    except OSError:
        return []


def _text(path: Path) -> str | None:
    """The line of a file, which is the device's own text. ? replaces unprintable characters."""
    try:
        line = path.read_bytes().decode(errors="replace").strip()
    except OSError:
        return None
    return "".join(each if each.isprintable() else "?" for each in line) or None


def _usb_device(name: str, sysfs: str) -> Path | None:
    """The folder of the USB device of the port with this name of the kernel."""
    if name.startswith("rfcomm"):  # the device above it is this machine's, not the board's
        return None
    device = Path(sysfs, "class", "tty", name, "device").resolve()
    return next((each for each in (device, *device.parents) if (each / "idVendor").exists()), None)


def _described(path: str, usb: Path | None) -> SerialPort:
    if usb is None:
        return SerialPort(path)
    vendor, product, serial, *ids = [_text(usb / each) for each in (
        "manufacturer", "product", "serial", "idVendor", "idProduct")]
    return SerialPort(path, vendor, product, serial, ":".join(each or "?" for each in ids))


def ports(*, dev: str = "/dev", sysfs: str = "/sys") -> list[SerialPort]:
    """Returns the serial ports of USB and Bluetooth, which may be boards. It opens none, so it
    doesn't know which ones are boards.

    A port has its name in `/dev/serial/by-id`, which stays the same, or else the one in `/dev`.
    Those in `by-id` are first; both lists are sorted. `dev` and `sysfs` may be other folders."""
    links = f"{dev}/serial/by-id"
    paths = [f"{links}/{name}" for name in _names(links)]
    paths += [f"{dev}/{name}" for name in _names(dev) if name.startswith(_KINDS)]
    found: dict[str, str] = {}
    for path in filter(os.path.exists, paths):
        found.setdefault(os.path.realpath(path), path)
    return [_described(path, _usb_device(os.path.basename(device), sysfs))
            for device, path in found.items()]


def is_likely(port: SerialPort) -> bool:
    """Returns whether a port is likely a board's: its USB device names DGT, or is the FTDI
    converter that the udev rule for boards names."""
    return port.usb_id == "0403:6001" or any(
        "DGT" in name for name in (port.vendor, port.product) if name)


def find_port(*, dev: str = "/dev", sysfs: str = "/sys") -> str:
    """Returns the path of the only port that is likely a board's: its USB device names DGT, or has
    the number `0403:6001`. It opens none.

    `OSError` if there is none (`ENODEV`) or more than one (`ENOTUNIQ`). Its text lists the ports
    that were found."""
    found = ports(dev=dev, sysfs=sysfs)
    likely = [port for port in found if is_likely(port)]
    if len(likely) == 1:
        return likely[0].path
    if likely:
        raise OSError(errno.ENOTUNIQ, "several boards: name the port of one of them: "
                      + "; ".join(map(str, likely)))
    if found:
        raise OSError(errno.ENODEV, "no port is likely a board's. If one of these is, name it: "
                      + "; ".join(map(str, found)))
    raise OSError(errno.ENODEV, "no board: plug it in, or name its port (no serial port of USB or "
                  "Bluetooth)")


def chosen_port(program: str, port: str | None) -> str:
    """Returns the port that a program was given, or else the only likely one, which it prints.
    `SystemExit` if there isn't just one."""
    if port is not None:
        return port
    try:
        found = find_port()
    except OSError as fault:
        raise SystemExit(f"{program}: {fault.strerror}") from None
    print(f"{program}: the only likely board is {found}", file=sys.stderr, flush=True)
    return found


def main(words: Sequence[str], *, dev: str = "/dev", sysfs: str = "/sys") -> None:
    """Prints each port as a line. Ends with 1 if there is none."""
    argparse.ArgumentParser(prog="python -m dgt ports", description=(
        "Lists the serial ports of USB and Bluetooth, which may be boards, one per line. It opens "
        "none of them.")).parse_args(words)
    found = ports(dev=dev, sysfs=sysfs)
    if not found:
        sys.exit("no serial port of USB or Bluetooth (plug the board in)")
    for port in found:
        print(port)
