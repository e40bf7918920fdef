// What browsers have and the declarations of TypeScript 4.8 lack, and elements that the page finds, whose kinds no declaration knows.

interface Document {
  getElementById(id: string): any;
}
interface ParentNode {
  querySelector(text: string): any;
  querySelectorAll(text: string): NodeListOf<any>;
}
interface Element {
  setAttribute(name: string, value: string | number): void;
}
interface UIEvent {
  target: any;
}
interface FocusOptions {
  focusVisible?: boolean;
}
interface Array<T> {
  findLast(test: (value: T, place: number, all: T[]) => unknown): T | undefined;
  findLastIndex(test: (value: T, place: number, all: T[]) => unknown): number;
}
interface ArrayBufferView {
  length: number;
  subarray(first: number, end: number): Uint8Array;
}
interface Window {
  showSaveFilePicker?: (options: { suggestedName: string }) => Promise<any>;
  wokureti: object;
}

declare class VideoFrame {
  constructor(samples: Uint8Array, options: object);
  close(): void;
}
declare class VideoEncoder {
  static isConfigSupported(config: object): Promise<{ supported: boolean }>;
  constructor(options: { output: (chunk: any) => void; error: (error: Error) => void });
  state: string;
  encodeQueueSize: number;
  configure(config: object): void;
  encode(frame: VideoFrame, options: { keyFrame: boolean }): void;
  flush(): Promise<void>;
  close(): void;
}
declare class DecompressionStream {
  constructor(format: "gzip");
  readable: ReadableStream;
  writable: WritableStream;
}
// In a worker.
declare class FileReaderSync {
  readAsArrayBuffer(blob: Blob): ArrayBuffer;
}
