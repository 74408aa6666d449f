// The proved program `request`, compiled to WebAssembly: a typed text in, the bytes of a request or a line of its fault
// out. Every call is a run of the program from its start.
export async function loadRequest(wasm) {
  const module = await WebAssembly.compile(wasm);
  return function run(input) {
    let at = 0;
    const written = { 1: [], 2: [] };
    let memory;
    const env = {
      read(_descriptor, pointer, length) {
        const part = input.subarray(at, at + Number(length));
        new Uint8Array(memory.buffer, pointer, part.length).set(part);
        at += part.length;
        return BigInt(part.length);
      },
      write(descriptor, pointer, length) {
        for (const byte of new Uint8Array(memory.buffer, pointer, Number(length))) written[descriptor].push(byte);
        return length;
      },
    };
    const instance = new WebAssembly.Instance(module, { env });
    memory = instance.exports.memory;
    instance.exports.main();
    const errorBytes = Uint8Array.from(written[2]);
    return { output: Uint8Array.from(written[1]), errorBytes, error: new TextDecoder().decode(errorBytes) };
  };
}
