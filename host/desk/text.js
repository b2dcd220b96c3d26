// A script's bytes and the signs that the editor shows for them. No byte is lost, and none that a screen acts on is shown as it is:
// control bytes become their pictures (U+2400 ..), invisible signs and bytes that are no UTF-8 become boxes from the private planes.

const PICTURES = 0x2400, PICTURE_OF_DELETE = 0x2421, DELETE = 0x7f, LINE_FEED = 0x0a, SPACE = 0x20;
const BOX = 0xf0000, BYTE_BOX = 0x100000, BYTES = 0x100;
const UNSEEN = /[\p{Cc}\p{Cf}\p{Zl}\p{Zp}\p{Co}\p{Cn}]/u;

/** The code point at an offset and how many bytes it has; a negative one for a byte that starts none. */
function codeAt(bytes, at) {
    const first = bytes[at];
    if (first < 0x80) return [first, 1];
    const size = first >= 0xf0 ? 4 : first >= 0xe0 ? 3 : 2;
    const some = bytes.subarray(at, at + size);
    try {
        const code = new TextDecoder("utf-8", { fatal: true, ignoreBOM: true }).decode(some).codePointAt(0);
        return code < BOX ? [code, size] : [-1 - first, 1]; // the planes of the boxes themselves, byte by byte
    } catch {
        return [-1 - first, 1];
    }
}

function shownCode(code) {
    if (code < 0) return BYTE_BOX + (-1 - code);
    if (code === LINE_FEED) return code;
    if (code < SPACE) return PICTURES + code;
    if (code === DELETE) return PICTURE_OF_DELETE;
    // a picture or a box that stands in the text itself would be taken for another byte
    const taken = (code >= PICTURES && code < PICTURES + SPACE) || code === PICTURE_OF_DELETE;
    return taken || UNSEEN.test(String.fromCodePoint(code)) ? BOX + code : code;
}

/** The bytes as the editor shows them. */
function shown(bytes) {
    let signs = "";
    for (let at = 0; at < bytes.length;) {
        const [code, size] = codeAt(bytes, at);
        signs += String.fromCodePoint(shownCode(code));
        at += size;
    }
    return signs;
}

/** The bytes of one shown sign. */
function bytesOfSign(sign) {
    const code = sign.codePointAt(0);
    if (code >= BYTE_BOX && code < BYTE_BOX + BYTES) return [code - BYTE_BOX];
    if (code === PICTURE_OF_DELETE) return [DELETE];
    if (code >= PICTURES && code < PICTURES + SPACE) return [code - PICTURES];
    if (code < 0x80) return [code];
    return new TextEncoder().encode(code >= BOX && code < BYTE_BOX ? String.fromCodePoint(code - BOX) : sign);
}

/** The bytes of what the editor shows, and for each of them, and for the end, the place of its sign. */
function bytesOf(signs) {
    const bytes = [], places = [];
    let place = 0;
    for (const sign of signs) {
        for (const byte of bytesOfSign(sign)) {
            bytes.push(byte);
            places.push(place);
        }
        place += sign.length;
    }
    places.push(place);
    return { bytes: Uint8Array.from(bytes), places };
}

/** What was typed or pasted, with nothing raw in it. */
const safe = (signs) => shown(bytesOf(signs).bytes);
