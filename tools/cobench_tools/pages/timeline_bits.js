/** The bits of a frame on the wire with its stuff bits, as runs of version 3 count them: wire_bits.py says how. */
const POLYNOMIAL = 0x4599, LONGEST_ROW = 5;

/** The bits of some numbers, each with how many it has, the highest first. */
function bitsOf(numbers) {
  return numbers.flatMap(([number, count]) => Array.from({ length: count }, (_, at) => number >> count - 1 - at & 1));
}

function checkOf(bits) {
  return bits.reduce((register, bit) => (register << 1 & 0x7FFF) ^ (bit ^ register >> 14 ? POLYNOMIAL : 0), 0);
}

function stuffBits(bits) {
  let value = 1, row = 0, count = 0;
  for (const bit of bits) {
    row = bit === value ? row + 1 : 1;
    value = bit;
    if (row === LONGEST_ROW) { count++; value = 1 - bit; row = 1; }
  }
  return count;
}

/** `bytes` are hexadecimal digits. */
function exactBits(identifier, bytes) {
  const size = bytes.length / 2;
  const own = bitsOf([[identifier << 7 | size, 19], ...Array.from({ length: size }, (_, at) => [parseInt(bytes.slice(2 * at, 2 * at + 2), 16), 8])]);
  return 47 + 8 * size + stuffBits(own.concat(bitsOf([[checkOf(own), 15]])));
}

