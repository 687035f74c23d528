// Runs in a worker, one at a time; stopping a run ends its worker.

/** `told` is called with each message of the worker; if there is no worker, with `{ kind: 'fault', why }`. */
export function runnerOf(source, wasm, told) {
  let worker = null, isRunning = false;
  const url = URL.createObjectURL(new Blob([source], { type: 'text/javascript' }));

  function ended(why) {
    stop();
    told({ kind: 'fault', why });
  }
  function begun() {
    const it = new Worker(url);
    it.onmessage = ({ data }) => {
      if (it !== worker) return;
      if (data.kind === 'end' || data.kind === 'fault') isRunning = false;
      told(data);
    };
    it.onerror = event => {
      event.preventDefault();
      if (it === worker) ended(`the run’s worker ended (${event.message || 'this browser doesn’t start it'})`);
    };
    return it;
  }
  function stop() {
    worker?.terminate();
    worker = null;
    isRunning = false;
  }
  function run(given) {
    if (isRunning) stop();
    try {
      worker ??= begun();
      isRunning = true;
      worker.postMessage({ wasm, ...given });
    } catch (fault) {
      ended(`this browser doesn’t start a worker (${fault.message})`);
    }
  }
  return { run, stop, get isRunning() { return isRunning; } };
}
