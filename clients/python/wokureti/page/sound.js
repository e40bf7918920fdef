// The sound of playback at the stream's own speed, forward, if a stream has some. The picture is the clock: sound that
// parts from it is set again.

import { find } from "./elements.js";
import { engine } from "./engine.js";

// Seconds by which sound and picture may part.
const MOST_APART = 0.12;

/** The second at which a frame begins. `times` has the milliseconds of each frame, if the rate varies. */
export function secondOf(frame, rate, times = null) {
  return times?.[frame] === undefined ? frame / rate : times[frame] / 1000;
}

export class Sound {
  constructor(model, status) {
    Object.assign(this, { model, status, isOn: true, isPlaying: false });
    this.audio = new Audio();
    this.audio.addEventListener("error", () =>
      this.isPlaying && this.status.say("the sound of these frames cannot be played"),
    );
    find("sound").addEventListener("click", () => this.toggle());
    model.addEventListener("session", () => this.follow());
  }

  /** The switch is there if a stream has sound, and the sound is that of the frames that are shown now. */
  follow() {
    const key = engine.sound(this.model.session);
    find("sound").hidden = !key;
    if (key === this.key) return;
    this.key = key;
    this.stop();
    this.isLoaded = false;
  }

  toggle() {
    this.isOn = !this.isOn;
    find("sound").setAttribute("aria-pressed", String(this.isOn));
    if (!this.isOn) this.stop();
  }

  /** A frame is shown at a speed. */
  at(frame, speed) {
    if (!this.key || !this.isOn || speed !== 1) return this.stop();
    if (!this.isLoaded) {
      this.isLoaded = true;
      this.audio.src = this.key;
    }
    const { rate, times } = this.model;
    const due = secondOf(frame, rate, times);
    if (!this.isPlaying || Math.abs(this.audio.currentTime - due) > MOST_APART) this.audio.currentTime = due;
    if (this.isPlaying) return;
    this.isPlaying = true;
    this.audio.play().catch(() => {});
  }

  stop() {
    if (!this.isPlaying) return;
    this.isPlaying = false;
    this.audio.pause();
  }
}
