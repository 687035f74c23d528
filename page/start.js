// The page that tools/vsm-view makes: one run, with its data in the page.
import { showRun } from './view.js';

function dataOfPage() {
  try {
    return JSON.parse(document.getElementById('data').textContent);
  } catch {
    return null;
  }
}

showRun(document.getElementById('run'), dataOfPage(), { address: true });
