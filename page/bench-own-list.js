// The list of one's own scripts, in which each can be named, opened, saved as a file, and deleted.
import { editedAt } from './bench-own.js';
import { count, make } from './elements.js';

/** A row of the list. A deleted script can be had back as long as the list is open. */
function ownRow(own, it, acts) {
  const name = make('input', { 'aria-label': `Name of the script edited ${editedAt(it.at)}`, maxlength: 80 });
  name.value = it.name;
  name.onchange = () => {
    const given = name.value.trim() || it.name;
    name.value = given;
    if (own.rename(it.id, given)) acts.changed(it.id, given);
  };
  const buttonOf = (text, onclick) => make('button', { type: 'button', onclick }, text);
  const remove = buttonOf('Delete', () => {
    const kept = own.get(it.id), isThis = it.id === own.id;
    if (kept) own.remove(it.id);
    else if (own.put({ ...it, name: name.value }) && isThat) own.open(it.id);
    isThat ||= isThis;
    remove.textContent = kept ? 'Undo' : 'Delete';
    row.classList.toggle('deleted', kept !== null);
    acts.changed(it.id);
  });
  let isThat = false; // whether the deleted one was this window's
  const front = it.script.trim().split('\n')[0].slice(0, 60);
  const row = make(
    'li', {}, name,
    make('span', { class: 'muted' }, `edited ${editedAt(it.at)}, ${count(it.script.split('\n').length, 'line')}`),
    make('code', {}, front), buttonOf('Open', () => acts.open({ ...own.get(it.id) ?? it, name: name.value })),
    buttonOf('Save', () => acts.save({ ...it, name: name.value })), remove
  );
  return row;
}

/** `open` and `save` are called with a script, and `changed` with an id, and the name if the script is renamed. */
export function ownList(own, acts) {
  const all = own.all();
  if (!all.length) return make('p', {}, 'This browser keeps none. An edit makes a script yours.');
  return make('ul', { class: 'own' }, ...all.map(it => ownRow(own, it, acts)));
}
