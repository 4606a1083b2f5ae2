// The hall's program behind this page. Requests go one at a time, so that each state that comes is later
// than the one before it.

const POLL = 120;
const POLL_HIDDEN = 1500;
const RETRY = 1000;
/** Milliseconds after which an answer is given up. */
const PATIENCE = 5000;

export class Server {
  /** `events` has `state(state)`, `gone(isGone)` and `refused(sentence)`. */
  constructor(events) {
    this.events = events;
    this.seen = null;
    this.last = Promise.resolve();
    document.addEventListener("visibilitychange", () => this.wake?.());
  }

  /** Asks for the state again and again, and never ends. */
  async poll() {
    for (;;) {
      const answered = await this.request(stateRequest);
      await this.pause(answered ? (document.hidden ? POLL_HIDDEN : POLL) : RETRY);
    }
  }

  /** Answers whether the server took it. */
  post(path, fields = {}) {
    const init = { method: "POST", body: new URLSearchParams(fields) };
    return this.request(() => [path, init]);
  }

  request(describe) {
    const answer = this.last.then(() => this.send(...describe(this.seen)));
    this.last = answer;
    return answer;
  }

  async send(path, init) {
    try {
      const signal = AbortSignal.timeout(PATIENCE);
      const answer = await fetch(path, { ...init, cache: "no-store", signal });
      const state = answer.status === 204 ? null : await answer.json();
      this.events.gone(false);
      return this.take(answer.ok, state);
    } catch {
      // A server that runs again may come to the same revision with another drawing.
      this.seen = null;
      this.events.gone(true);
      return false;
    }
  }

  take(isTaken, state) {
    if (!isTaken) {
      this.events.refused(state.error);
    } else if (state) {
      this.seen = state.revision;
      this.events.state(state);
    }
    return isTaken;
  }

  pause(milliseconds) {
    return new Promise((resolve) => {
      this.wake = resolve;
      setTimeout(resolve, milliseconds);
    });
  }
}

function stateRequest(seen) {
  return [seen === null ? "/state" : `/state?seen=${seen}`, {}];
}
