// Plays blocks of frames one after the other. Each block has the frames of one or two sources; which of them is heard
// can be changed at any time, over 10 ms.
const FADE = 0.01;

class Ring extends AudioWorkletProcessor {
  constructor() {
    super();
    this.blocks = [];
    this.place = 0;
    this.which = 0;
    this.mixed = 0;
    this.peaks = [];
    this.count = 0;
    this.isOn = false;
    this.isNew = false;
    this.port.onmessage = ({ data }) => {
      if (data.block) this.blocks.push(data.block);
      if (data.which !== undefined) this.which = data.which;
      if (data.on !== undefined) this.isOn = data.on;
      if (data.clear) {
        this.isNew = true; // the first sound is reported at once
        this.blocks = [];
        this.place = 0;
      }
    };
  }

  process(_, [output]) {
    const size = output[0].length;
    for (let frame = 0; frame < size; frame++) {
      const block = this.isOn ? this.blocks[0] : null;
      this.mixed += Math.max(-1, Math.min((this.which - this.mixed) * 1e9, 1)) / (FADE * sampleRate);
      this.mixed = Math.max(0, Math.min(this.mixed, 1));
      for (let channel = 0; channel < output.length; channel++) {
        let value = 0;
        if (block) {
          const at = this.place * output.length + channel;
          const one = block.sources[0][at];
          const other = block.sources[1] ? block.sources[1][at] : one;
          value = one + (other - one) * this.mixed;
        }
        output[channel][frame] = value;
        this.peaks[channel] = Math.max(this.peaks[channel] ?? 0, Math.abs(value));
      }
      if (block && ++this.place >= block.frames) {
        this.blocks.shift();
        this.place = 0;
      }
    }
    this.count += size;
    const first = this.blocks[0];
    if (this.count >= sampleRate / 40 || (first && this.isNew)) {
      this.count = 0;
      this.isNew = !first && this.isNew;
      const ahead = this.blocks.reduce((sum, it) => sum + it.frames, -this.place);
      this.port.postMessage({ frame: first ? first.first + this.place : null, turn: first?.turn, peaks: this.peaks, ahead, isOn: this.isOn });
      this.peaks = [];
    }
    return true;
  }
}
registerProcessor("ring", Ring);
