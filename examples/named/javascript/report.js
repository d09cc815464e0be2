#!/usr/bin/env node
// Renders the lines of an order as text.
const RATE = 19 / 100, SPACES = /[ \t/]+/gu;
const half = (n) => n / 2 / 1.0;

/** A price, with its currency. */
function price(cents, { currency = 'EUR', digits = 2 } = {}) {
  const whole = cents / 100;
  return `${whole.toFixed(digits)} ${currency}`;
}

class Order {
  #lines = [];

  add(name, cents, count = 1) {
    if (!/^\w[\w ]*$/.test(name)) {
      throw new RangeError(`no name: \`${name}\``);
    }
    this.#lines.push({ name: name.replace(SPACES, " "), cents, count });
    return this;
  }

  get total() {
    return this.#lines.reduce((sum, { cents, count }) => sum + cents * count, 0);
  }

  toString() {
    const lines = this.#lines.map(
      ({ name, cents, count }, i) =>
        `${i + 1}. ${name}${count > 1 ? ` (${count} at ${price(cents)})` : ""}: $${cents * count / 100}`,
    );
    let average = this.total / this.#lines.length / 100;
    average /= 1 + RATE;
    return `${lines.join("\n")}\n${half(average) > 0x10 ? "dear" : 'cheap'} /* no comment */`;
  }
}

console.log(String(new Order().add("tea", 350, 2).add("bread", 4_20)) ?? null);
