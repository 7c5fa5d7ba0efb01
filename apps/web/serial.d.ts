// The part of Web Serial that the page's scripts use, and the names that apps/web/build defines.

interface SerialPort extends EventTarget {
  readonly readable: ReadableStream<Uint8Array> | null;
  readonly writable: WritableStream<Uint8Array> | null;
  open(options: {baudRate: number, dataBits: number, stopBits: number, parity: string,
                 flowControl: string, bufferSize: number}): Promise<void>;
  close(): Promise<void>;
  getInfo(): {usbVendorId?: number, usbProductId?: number};
}

interface Serial extends EventTarget {
  getPorts(): Promise<SerialPort[]>;
  requestPort(): Promise<SerialPort>;
}

interface Navigator {
  readonly serial?: Serial;
}

declare const DGT: string, DGT64: string; // the modules in base64
declare var page: unknown; // for tests and the console
