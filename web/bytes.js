/* Bytes and the characters that they stand for. */

const encoder = new TextEncoder();
const unicode = new TextDecoder("utf-8", { fatal: true, ignoreBOM: true });
const latin = new TextDecoder("latin1");

export function of(text) {
    return encoder.encode(text);
}

/* A phrase sheet may be in any encoding: what is not UTF-8 is shown as Latin-1. */
export function text(bytes) {
    try {
        return unicode.decode(bytes);
    } catch {
        return latin.decode(bytes);
    }
}

export function hexadecimal(value) {
    return "0x" + value.toString(16);
}
