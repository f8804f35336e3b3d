/**
 * A window's seat. A client numbers its mutations without gaps, so each window that is open has a client of its own, and it has
 * it by its seat. A seat is held by a lock that ends with the window; a window that opens takes one that nobody holds, and so
 * goes on with the client of a window that was closed. So a browser has as many clients as it ever had windows open at once.
 */
function hold(name) {
  return new Promise((resolve) => {
    navigator.locks.request(name, { ifAvailable: true }, (lock) => {
      resolve(lock !== null);
      return lock === null ? undefined : new Promise(() => {});
    });
  });
}

/** Takes one of these seats or else a new one, for as long as this window lives. */
export async function takeSeat(seats) {
  for (const seat of seats) {
    if (await hold(`rv-lists-seat-${seat}`)) return seat;
  }
  return takeSeat([crypto.randomUUID()]);
}
