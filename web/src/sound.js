/** The sound of a run, in step with its film. */

const RATE = 44_100;
const PAIRS_OF_FRAME = 735;
const HEAD_BYTES = 44;

/**
 * A WAV file of samples.
 * @param {Uint8Array} samples
 */
export function wavOf(samples) {
  const bytes = new Uint8Array(HEAD_BYTES + samples.length);
  const view = new DataView(bytes.buffer);
  /**
   * @param {number} at
   * @param {string} text
   */
  const put = (at, text) => bytes.set(new TextEncoder().encode(text), at);
  put(0, 'RIFF');
  view.setUint32(4, 36 + samples.length, true);
  put(8, 'WAVEfmt ');
  view.setUint32(16, 16, true);
  view.setUint16(20, 1, true);
  view.setUint16(22, 2, true);
  view.setUint32(24, RATE, true);
  view.setUint32(28, RATE * 4, true);
  view.setUint16(32, 4, true);
  view.setUint16(34, 16, true);
  put(36, 'data');
  view.setUint32(40, samples.length, true);
  bytes.set(samples, HEAD_BYTES);
  return bytes;
}

export class Sound {
  constructor() {
    /** @type {AudioContext | null} */
    this.context = null;
    /** @type {AudioBufferSourceNode | null} */
    this.source = null;
    /** @type {Uint8Array} */
    this.samples = new Uint8Array(0);
    this.isSilent = true;
    this.isOn = true;
  }

  /** @param {Uint8Array} samples */
  load(samples) {
    this.stop();
    this.samples = samples;
    this.isSilent = samples.every((byte) => byte === 0);
  }

  /**
   * Plays from a frame on.
   * @param {number} frame
   */
  play(frame) {
    this.stop();
    const pairs = Math.floor(this.samples.length / 4);
    const first = frame * PAIRS_OF_FRAME;
    if (!this.isOn || this.isSilent || first >= pairs) return;
    this.context ??= new AudioContext({ sampleRate: RATE });
    const buffer = this.context.createBuffer(2, pairs - first, RATE);
    const view = new DataView(this.samples.buffer, this.samples.byteOffset, pairs * 4);
    const [left, right] = [buffer.getChannelData(0), buffer.getChannelData(1)];
    for (let at = first; at < pairs; at += 1) {
      left[at - first] = view.getInt16(at * 4, true) / 32_768;
      right[at - first] = view.getInt16(at * 4 + 2, true) / 32_768;
    }
    this.source = this.context.createBufferSource();
    this.source.buffer = buffer;
    this.source.connect(this.context.destination);
    this.context.resume();
    this.source.start();
  }

  stop() {
    this.source?.stop();
    this.source = null;
  }
}
