'use strict';
// What is at work, on standard error where it is a terminal, once a run takes more than a second.

/** @typedef {import('./types').Output} Output */

const AFTER = 1000;
const EVERY = 100;

class Progress {
  constructor(/** @type {Output} */ stream, /** @type {boolean} */ isOn) {
    this.stream = stream;
    this.isOn = isOn;
    this.begun = Date.now();
    this.shown = 0;
    this.text = '';
    /** @type {Record<string, number>} */
    this.times = {};
    /** @type {string | null} */
    this.stage = null;
    this.since = process.hrtime.bigint();
  }

  /** Begins a stage of the work; the time until the next one counts for it. */
  begin(/** @type {string | null} */ stage) {
    const now = process.hrtime.bigint();
    if (this.stage) this.times[this.stage] = (this.times[this.stage] || 0) + Number(now - this.since) / 1e6;
    this.stage = stage;
    this.since = now;
    if (stage) this.tell(stage);
  }

  /** Says what is at work, if it is time to. */
  tell(/** @type {string} */ text) {
    const now = Date.now();
    this.text = text;
    if (!this.isOn || now - this.begun < AFTER || now - this.shown < EVERY) return;
    this.shown = now;
    const seconds = ((now - this.begun) / 1000).toFixed(0);
    this.stream.write(`\r\x1b[K${text} .. ${seconds} s`.slice(0, (this.stream.columns || 80) + 4));
  }

  /**
   * Goes on saying it while something else is waited for.
   *
   * @template T
   * @param {string} stage
   * @param {Promise<T>} promise
   */
  async during(stage, promise) {
    this.begin(stage);
    const timer = this.isOn ? setInterval(() => this.tell(stage), 200) : null;
    try {
      return await promise;
    } finally {
      if (timer) clearInterval(timer);
      this.clear();
    }
  }

  /** A line of its own on standard error. */
  line(/** @type {string} */ text) {
    this.clear();
    this.stream.write(`${text}\n`);
  }

  clear() {
    if (this.isOn && this.shown) this.stream.write('\r\x1b[K');
    this.shown = 0;
  }

  end() {
    this.begin(null);
    this.clear();
  }
}

/** The seconds since a command began, as they are printed. */
function seconds(/** @type {Pick<import('./types').Context, 'clock' | 'begun'>} */ { clock, begun }) {
  return clock || `${(Number(process.hrtime.bigint() - begun) / 1e9).toFixed(2)} s`;
}

module.exports = { seconds, Progress };
