// Which of two tasks that wait every engine does first. A timer may come later than its time, and a message at any time.

const NESTED = 5, LEAST = 4;

export const TIMERS = "timers", IMMEDIATE = "immediate";

/** To node a timer has a millisecond at least. */
const lengthOf = ({ wait }) => Math.max(1, wait);
const isAlike = (one, other) => one.queue === other.queue && lengthOf(one) === lengthOf(other);

/** What is known of a task's place among others that wait. It is set at `from`, and in node it may be done with the `first` of those
    that are as long. In a chain of more than NESTED timers a browser takes LEAST milliseconds at least, node does not: so a timer's
    time is from `wait` to `longest`. */
export function placeOf({ queue, wait, from, level }, waiting) {
  const alike = waiting.filter((other) => isAlike(other, { queue, wait }));
  return {
    queue, wait, from, first: Math.min(from, ...alike.map((other) => other.from)),
    longest: level > NESTED ? Math.max(LEAST, wait) : wait, level: queue === TIMERS ? level + 1 : 0,
  };
}

/** Whether one comes before another for sure: it was set earlier and is not longer. So come messages of one sender. Timers of one
    length keep their order in node too; of others, one is not sure to come before what waits with a third one that was set before
    it. */
export function comesFirst(one, other) {
  if (one.queue !== other.queue || one.latest >= other.order || one.longest > other.wait) return false;
  return isAlike(one, other) || one.latest < other.first;
}
