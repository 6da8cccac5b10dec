// @ts-nocheck
// Makes random edits by the calls of the page; `words` has a list of seeds. The code runs in the page, as the body of a function.

let state = 0;
const random = (size) => {
  state = (state + 0x6d2b79f5) | 0;
  let mixed = Math.imul(state ^ (state >>> 15), 1 | state);
  mixed = (mixed + Math.imul(mixed ^ (mixed >>> 7), 61 | mixed)) ^ mixed;
  return ((mixed ^ (mixed >>> 14)) >>> 0) % size;
};
const pick = (some) => some[random(some.length)];
const { model, tree, edits } = window.mmrepo;
const frame = () => new Promise((done) => requestAnimationFrame(() => requestAnimationFrame(done)));
const until = async (is) => {
  for (let tries = 0; tries < 100 && !is(); tries += 1) {
    await new Promise((done) => setTimeout(done, 5));
  }
};
const TEXTS = ['a', 'name', '<b>', '"&\\', 'größe', '#0', 'two words', ':X', '', '\u{1F642}', '__proto__', 'null'];
const NUMBERS = ['0', '1', '-1', '7', '2147483647', '2147483648', '-9223372036854775808', 'x', '+5', '1.5'];

const type = (input, value) => {
  input.value = value;
  input.dispatchEvent(new Event('input', { bubbles: true }));
  input.dispatchEvent(new Event('change', { bubbles: true }));
};

const choose = async (button) => {
  button.click();
  await until(() => document.querySelector('#choices li') || document.querySelector('.picker .more')?.textContent);
  const choices = [...document.querySelectorAll('#choices li')];
  if (choices.length > 0) {
    pick(choices).dispatchEvent(new Event('pointerdown', { bubbles: true }));
  } else {
    document.querySelector('.picker input')?.blur();
  }
};

const field = async (id) => {
  tree.select(id);
  await until(() => mmrepo.properties.rows.size > 0);
  await frame();
  const row = pick([...mmrepo.properties.rows.values()]);
  const { element, feature } = row;
  const button = (start) => [...element.querySelectorAll('button:not(:disabled)')].filter((it) => it.getAttribute('aria-label')?.startsWith(start));
  const isNumber = ['EInt', 'ELong'].includes(feature.type);
  const moves = [...button('Move up'), ...button('Move down'), ...button('Remove')];
  const takes = [...button('Take'), ...button('Set')];
  const adds = [...button('Choose'), ...button('Add to')];
  if (moves.length > 0 && random(2) === 0) {
    pick(moves).click();
  } else if (takes.length > 0 && random(4) === 0) {
    pick(takes).click();
  } else if (adds.length > 0) {
    await choose(pick(adds));
  } else {
    const input = element.querySelector('input, select, textarea');
    if (input?.type === 'checkbox') {
      input.click();
    } else if (input?.tagName === 'SELECT' && !feature.many) {
      type(input, pick([...input.options]).value);
    } else if (input) {
      type(input, pick(isNumber ? NUMBERS : TEXTS));
      element.querySelector('.adding button')?.click();
    }
  }
  await new Promise((done) => setTimeout(done, 10));
  return `field ${id}.${feature.name}`;
};

const edit = async () => {
  const ids = [...model.nodes.keys()];
  const objects = ids.filter((it) => typeof it === 'number');
  const kind = random(20);
  if (kind < 11 && objects.length > 0) {
    return field(pick(objects));
  }
  if (kind < 15 || objects.length < 5) {
    const node = pick(ids);
    const parts = model.metamodel.partsOf(model.nodes.get(node).class).filter((it) => !edits.isFull(node, it));
    const feature = parts.length > 0 ? pick(parts) : null;
    const classes = feature ? model.metamodel.concrete(feature.type) : [];
    if (classes.length > 0) {
      await edits.make(node, feature, pick(classes));
    }
    return `new in ${node}`;
  }
  if (kind < 18) {
    const what = pick(objects);
    const places = ids.flatMap((id) => model.metamodel.partsOf(model.nodes.get(id).class)
      .filter((it) => model.metamodel.conforms(model.nodes.get(what).class, it.type)).map((it) => [id, it]));
    const [node, feature] = pick(places);
    const count = (model.nodes.get(node).values[feature.name] ?? []).length ?? 0;
    await edits.place(what, node, feature, random(2) === 0 ? undefined : random(count + 1));
    return `place ${what} in ${node}.${feature.name}`;
  }
  const gone = pick(objects);
  const below = await mmrepo.call('below', { object: gone });
  if (below.count <= 4) {
    await mmrepo.call('delete', { object: gone }).catch(() => null);
  }
  return `delete ${gone}`;
};

for (const seed of words[0]) {
  state = seed;
  await edit();
}
