// Calls of the server.
let last = 0, running = 0;

export const isCalling = () => running > 0;
export const fileOf = async name => (await fetch(name)).json();

const failed = end => ({ status: null, end, out: '', err: '', ms: 0 });
const post = (name, fields) => fetch(name, { method: 'POST', body: JSON.stringify(fields) });

const pause = time => new Promise(done => setTimeout(done, time));

// The calls for one purpose.
export function newWork() {
  const names = new Set();
  let isStopped = false, hasEnded = false;

  // What the program leaves: its status, or none and how it ended otherwise; its output, error output and time.
  async function call(command, fields) {
    if (isStopped) return failed('stopped');
    const id = `c${++last}`;
    names.add(id);
    running++;
    try {
      let answer = await post('call', { id, command, ...fields });
      // What was just stopped may still count as running.
      for (let tries = 0; answer.status === 503 && tries < 20 && !isStopped; tries++) {
        await pause(100);
        answer = await post('call', { id, command, ...fields });
      }
      return answer.ok ? await answer.json() : failed(await answer.text());
    } catch {
      return failed('the server of this page has ended');
    } finally {
      names.delete(id);
      running--;
    }
  }

  // Ends the calls that run; none begins before all that waits for them has seen it. A call may be on its way to the server when it
  // is stopped, so the server is told until it has ended.
  async function stop() {
    isStopped = true;
    while (names.size) {
      await Promise.allSettled([...names].map(id => post('stop', { id })));
      await pause(50);
    }
    await pause(50);
    isStopped = hasEnded;
  }

  // The same for good.
  function end() {
    hasEnded = true;
    return stop();
  }

  return { call, stop, end };
}

// How a call ended, in a few words.
export function endOf(left) {
  if (left.end) return left.end;
  const line = left.err.trimEnd().split('\n').pop();
  return left.status === 0 ? 'ends' : line || `status ${left.status}`;
}

// The words and the failures of guards that `run --stats` counts.
export function countsOf(left) {
  const words = /^words (\d+)$/m.exec(left.err);
  const guards = [...left.err.matchAll(/^guard @(\S+) (\d+) fails (\d+)$/gm)].map(([, name, item, fails]) => ({ name, item: +item, fails: +fails }));
  return { words: words ? +words[1] : null, guards };
}
