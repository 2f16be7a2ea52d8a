"use strict";
// The calls of the module: bytes in, bytes out. Its memory has 64-bit addresses, so places and lengths cross as BigInt.

const LEAST_ROOM = 1 << 18;
const MOST_ROOM = 1 << 27;
const NO_ROOM = 6;

// Whether this engine takes a memory with 64-bit addresses: a module that has one, and nothing else, is tried.
const hasMemory64 = () =>
  typeof WebAssembly === "object" && WebAssembly.validate(Uint8Array.of(0, 97, 115, 109, 1, 0, 0, 0, 5, 3, 1, 4, 0));

const bytesOfText = (text) => new TextEncoder().encode(text);
const textOfBytes = (bytes) => new TextDecoder().decode(bytes);
const bytesOfBase64 = (text) => Uint8Array.from(atob(text), (c) => c.charCodeAt(0));

class Replay {
  constructor(bytes) {
    this.module = new WebAssembly.Module(bytes);
    this.begin();
  }

  begin() {
    this.calls = new WebAssembly.Instance(this.module, {}).exports;
  }

  // Room for so many bytes in the module's memory.
  take(count) {
    const place = this.calls.page_take(BigInt(count));
    if (place === 0n) throw new RangeError("the module finds no memory");
    return place;
  }

  put(bytes) {
    const place = this.take(bytes.length);
    new Uint8Array(this.calls.memory.buffer).set(bytes, Number(place));
    return place;
  }

  // A call with so much room for its text. The memory's views are made anew after it, since the memory may have grown in it.
  callWithin(name, parts, room) {
    this.calls.page_reset();
    const places = [];
    for (const part of parts) {
      const bytes = new Uint8Array(part.buffer, part.byteOffset, part.byteLength);
      places.push(this.put(bytes), BigInt(part.length));
    }
    const atText = this.take(room), atCount = this.take(8);
    const status = this.calls[name](...places, atText, BigInt(room), atCount);
    const memory = this.calls.memory.buffer;
    const count = Number(new DataView(memory).getBigUint64(Number(atCount), true));
    return { status, text: new Uint8Array(memory, Number(atText), count).slice() };
  }

  // A call, with more room as long as its text finds too little. After a trap the module is begun anew.
  call(name, ...parts) {
    try {
      for (let room = LEAST_ROOM; ; room *= 8) {
        const answer = this.callWithin(name, parts, room);
        if (answer.status !== NO_ROOM || room >= MOST_ROOM) return answer;
      }
    } catch (error) {
      this.begin();
      throw error;
    }
  }

  // What a form with its numbers writes of a job, and the exit number of the program.
  run(form, numbers, job) {
    return this.call("mt_page_replay", bytesOfText(form), Uint32Array.from(numbers), job);
  }

  // Why a form refuses a job, in words.
  explain(form, job) {
    return this.call("mt_page_explain", bytesOfText(form), job);
  }
}
