// The search field: shows what holds all that is typed, group by group: rules, terms, differences, questions, names. In a group names and titles that are what is typed come
// first, then those that begin with it; then texts that hold it. Enter goes to the first one. What was gone to is seen below the field, so the results go.
(() => {
  const MOST = 8;
  const field = document.getElementById('find'), met = document.getElementById('met');
  const all = (selector) => [...document.querySelectorAll(selector)];
  const plain = (text) => text.toLowerCase().replace(/\s+/g, ' ').trim();
  const link = (href, text) => Object.assign(document.createElement('a'), { href, textContent: text });
  // What is found: its title, all its text, and what shows it.
  const entry = (title, text, nodes) => ({ title: plain(title), text: plain(text), nodes });
  const shown = (item) => () => [...item.childNodes].map((node) => node.cloneNode(true));
  // A heading of the rules with what stands below it, up to the next one.
  const section = (heading) => {
    const parts = [];
    for (let it = heading.nextElementSibling; it && !/^H\d$/.test(it.tagName); it = it.nextElementSibling) if (it.className !== 'differs') parts.push(it.textContent);
    return entry(heading.textContent, `${heading.textContent} ${parts.join(' ')}`, () => [link(`#${heading.id}`, heading.textContent)]);
  };
  const row = (it, title) => entry(title.textContent, it.textContent, () => [link(`#${it.id}`, title.textContent)]);
  const believed = (item) => item.querySelector('a').textContent.split('.')[0] <= all('.dense').length;
  const names = (items) => items.map((item) => entry(item.firstChild.textContent, item.firstChild.textContent, shown(item)));
  const groups = () => {
    const definitions = all('.index:not(.own) li'), toBelieve = definitions.filter(believed), others = definitions.filter((item) => !believed(item));
    return [
      ['Rules', [...names(all('.own li')), ...all('#rules + .rules > :is(h3, h4, h5)').map(section)]],
      ['Terms', all('.terms tr[id]').map((it) => row(it, it.cells[0]))],
      ['Differences', all('li[id^=differs-]').map((it) => row(it, it.querySelector('b')))],
      ['Questions', all('.asked tr[id]').map((it) => row(it, it.cells[0]))],
      ['Definitions', [...names(toBelieve), ...all('.renamed tr').map((it) => row(it, it.cells[0]))]],
      ['Definitions that nobody has to believe', names(others)],
    ];
  };
  const rank = (it, typed) => (it.title === typed ? 0 : it.title.startsWith(typed) ? 1 : it.title.includes(typed) ? 2 : it.text.includes(typed) ? 3 : 4);
  const foundIn = (entries, typed) => {
    const words = typed.split(' ');
    const found = entries.filter((it) => words.every((word) => it.text.includes(word))).map((it) => [rank(it, typed), it]);
    const titles = new Set();
    return found.sort(([a, one], [b, other]) => a - b || (a < 3 ? one.title.length - other.title.length : 0)).map(([, it]) => it)
      .filter((it) => !titles.has(it.title) && titles.add(it.title)).slice(0, MOST);
  };
  const group = (name, found) => {
    const made = document.createElement('div'), head = document.createElement('b');
    head.textContent = name;
    made.append(head, ...found.map((it) => { const span = document.createElement('span'); span.append(...it.nodes()); return span; }));
    return made;
  };
  let known = null;
  const show = () => {
    const typed = plain(field.value);
    known ??= groups();
    const found = typed ? known.map(([name, entries]) => [name, foundIn(entries, typed)]).filter(([, entries]) => entries.length) : [];
    met.replaceChildren(...found.map(([name, entries]) => group(name, entries)));
    if (typed && !found.length) met.textContent = 'nothing found';
  };
  field.addEventListener('input', show);
  met.addEventListener('click', () => met.replaceChildren());
  field.addEventListener('keydown', (event) => {
    const first = met.querySelector('a');
    if (event.key === 'Enter' && first) { location.hash = first.hash; met.replaceChildren(); }
    if (event.key === 'Escape') { field.value = ''; show(); }
  });
})();
