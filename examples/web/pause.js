/** A pause that can be cut short. A call of `end` that finds no pause ends the next one at once. */
export class Pause {
  #over = () => {};
  #ended = false;

  async take(milliseconds) {
    if (!this.#ended) {
      await new Promise((resolve) => {
        this.#over = resolve;
        setTimeout(resolve, milliseconds);
      });
    }
    this.#ended = false;
  }

  end() {
    this.#ended = true;
    this.#over();
  }
}

const FIRST = 1_000;
const LONGEST = 30_000;

/** How long to wait after so many failures in a row, in milliseconds: twice as long each time, and not all windows alike. */
export function backoff(failures) {
  return Math.min(FIRST * 2 ** (failures - 1), LONGEST) * (0.75 + 0.5 * Math.random());
}
