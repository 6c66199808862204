// ---- Tones

// The tones of a lifted handset in the United States (ITU-T E.180, Supplement 2; that of confirmation by RFC 3660, 2.1): their
// frequencies in Hz, their seconds of sound and of silence, and how often they come, where they end by themselves.
const TONES = {
  "L/dl": { hertz: [350, 440], sound: 1, silence: 0 },
  "L/bz": { hertz: [480, 620], sound: 0.5, silence: 0.5 },
  "L/ro": { hertz: [480, 620], sound: 0.25, silence: 0.25 },
  "G/cg": { hertz: [480, 620], sound: 0.25, silence: 0.25 },
  "G/rt": { hertz: [440, 480], sound: 2, silence: 4 },
  "G/cf": { hertz: [350, 440], sound: 0.1, silence: 0.1, times: 3 },
};
// How loud each frequency is, of 1.
const LOUD = 0.1;
// A sound begins and ends within so many seconds, so that it doesn't click.
const EDGE = 0.004;

// How loud a sound of so many seconds is at a moment of it, of 1.
function edgeAt(tone, moment) {
  if (tone.silence === 0) {
    return 1;
  }
  return Math.max(0, Math.min(1, moment / EDGE, (tone.sound - moment) / EDGE));
}

// Fills samples with one sound and one silence of a tone, as often as it comes.
function fillTone(samples, tone, rate) {
  const period = tone.sound + tone.silence;
  for (let place = 0; place < samples.length; place += 1) {
    const moment = (place / rate) % period;
    const sum = tone.hertz.reduce((all, hertz) => all + Math.sin(2 * Math.PI * hertz * (place / rate)), 0);
    samples[place] = LOUD * sum * edgeAt(tone, moment);
  }
}

// What is heard at the chosen telephone is played, where it was asked for.
const speaker = {
  context: null,
  isOn: false,
  // By the signal's name: what plays it.
  playing: new Map(),

  // Begins to play a tone.
  begin(name) {
    const tone = TONES[name];
    const rate = this.context.sampleRate;
    const buffer = this.context.createBuffer(1, Math.round(rate * (tone.sound + tone.silence) * (tone.times ?? 1)), rate);
    fillTone(buffer.getChannelData(0), tone, rate);
    const source = this.context.createBufferSource();
    source.buffer = buffer;
    source.loop = tone.times === undefined;
    source.connect(this.context.destination);
    source.start();
    this.playing.set(name, source);
  },

  // Plays the tones among these signals, and no others.
  hear(names) {
    const wanted = this.isOn ? names.filter((name) => name in TONES) : [];
    for (const [name, source] of this.playing) {
      if (!wanted.includes(name)) {
        source.stop();
        this.playing.delete(name);
      }
    }
    wanted.filter((name) => !this.playing.has(name)).forEach((name) => this.begin(name));
  },

  // Tones are asked for, or aren't any more.
  turn(isOn) {
    this.isOn = isOn;
    if (isOn) {
      this.context ??= new AudioContext();
      this.context.resume();
    } else {
      this.context?.suspend();
    }
    telephones.sound();
  },
};
