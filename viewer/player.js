// Plays a round: one turn after the other at the chosen speed, until the last turn or a pause.
'use strict';

class Player {
  /** `step` shows the next turn and is awaited; `isAtEnd` returns whether the turn is the last. */
  constructor(button, speed, step, isAtEnd) {
    this.button = button;
    this.speed = speed;
    this.step = step;
    this.isAtEnd = isAtEnd;
    this.timer = null;
  }

  get isPlaying() {
    return this.timer !== null;
  }

  toggle() {
    if (this.isPlaying) {
      this.pause();
    } else {
      this.play();
    }
  }

  play() {
    this.schedule();
    this.button.textContent = 'Pause';
  }

  pause() {
    clearTimeout(this.timer);
    this.timer = null;
    this.button.textContent = 'Play';
  }

  schedule() {
    this.timer = setTimeout(() => this.tick(), 1000 / Number(this.speed.value));
  }

  async tick() {
    const timer = this.timer;
    await this.step();
    if (this.timer !== timer) {
      return;
    }
    if (this.isAtEnd()) {
      this.pause();
    } else {
      this.schedule();
    }
  }

  /** Chooses the next higher or lower speed. */
  changeSpeed(by) {
    const wanted = Math.max(0, this.speed.selectedIndex + by);
    this.speed.selectedIndex = Math.min(this.speed.length - 1, wanted);
  }
}
