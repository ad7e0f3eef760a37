'use strict';
// What the compiler answers of the files of a folder, as where imports lead, by names. A later run has the same answers without the compiler, where the file
// system answers as it did.

/** @typedef {import('./files.js').Files} Files */
/** @typedef {import('./cache.js').Kept} Kept */

class Answers {
  /** `files` looks files up; `kept` has the answers of earlier runs, where there are some. */
  constructor(/** @type {Files} */ files, /** @type {Kept | null | undefined} */ kept) {
    this.files = files;
    this.kept = kept;
    const known = kept ? kept.answersOf(files.root) : null;
    /** @type {Map<string, unknown>} */
    this.known = new Map(known && files.isSame(known.asked) ? known.found : []);
    /** @type {Map<string, unknown>} */
    this.found = new Map();
    this.isNew = false;
  }

  /**
   * The answer to what is asked under a name, which is made where it is not known.
   *
   * @template R
   * @param {string} name
   * @param {() => R} make what has its own form in JSON
   * @returns {R}
   */
  of(name, make) {
    if (!this.found.has(name)) {
      const isKnown = this.known.has(name);
      this.isNew = this.isNew || !isKnown;
      this.found.set(name, isKnown ? this.known.get(name) : make());
    }
    return /** @type {R} */ (this.found.get(name));
  }

  /** Keeps what was asked, for later runs, and what is known besides: another entry point may ask for it. */
  keep() {
    if (this.kept && this.isNew) this.kept.putAnswers(this.files.root, { asked: this.files.asked, found: [...new Map([...this.known, ...this.found])] });
    this.isNew = false;
  }
}

module.exports = { Answers };
