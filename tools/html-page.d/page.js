// Marks what an event is about, an item or a part of it, and its bytes, or takes the mark away.
const find = item => document.querySelectorAll('[data-item="' + item + '"]');
const mark = (event, on) => {
  const target = event.target.closest('[data-item]');
  if (target)
    for (const element of find(target.dataset.item))
      element.classList.toggle('on', on);
};
for (const name of ['mouseover', 'focusin'])
  addEventListener(name, event => mark(event, true));
for (const name of ['mouseout', 'focusout'])
  addEventListener(name, event => mark(event, false));

// A click on an item shows its bytes, and a click on bytes their item, though they are folded. The
// buttons fold all items, or unfold them.
addEventListener('click', event => {
  const target = event.target.closest('[data-item],button');
  if (!target)
    return;
  if (target.localName === 'button')
    for (const element of document.querySelectorAll('.items details'))
      element.open = target.textContent === 'Unfold';
  else
    for (const element of find(target.dataset.item))
      if (element.closest('.items') !== target.closest('.items')) {
        for (const folded of document.querySelectorAll('details'))
          if (folded.contains(element))
            folded.open = true;
        element.scrollIntoView({block: 'nearest'});
        return;
      }
});

// Only the items that have the words that are searched for are shown, and of a connection only the
// streams and the groups that have such an item.
addEventListener('input', event => {
  const words = event.target.value.toLowerCase();
  for (const element of document.querySelectorAll('.items>div'))
    element.hidden = !element.textContent.toLowerCase().includes(words);
  for (const element of document.querySelectorAll('section'))
    element.hidden = words !== '' && !element.querySelector('.items>div:not([hidden])');
});
