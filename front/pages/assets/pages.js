// Lists of the hub fifty at a time, in the order of names, with a search by the beginning of a name.
import {early, page} from './hub.js'
import {button, field, input, make} from './dom.js'
import {sends} from './frame.js'
import {say} from './texts.js'

const SIZE = 50

/** The place of the first name that isn't before this one: the list is in the order of names, so it is found by halves. */
async function placeOf(where, wanted) {
  let low = 0, high = (await page(where, 0, 1)).total
  while (low < high) {
    const middle = (low + high) >> 1, {items} = await page(where, middle, 1)
    if (items.length && items[0].name < wanted) low = middle + 1
    else high = middle
  }
  return low
}

/** The search: `list` shows the page from a place on, and gives its items. */
function find(where, list) {
  const name = input({name: 'find', type: 'search', autocapitalize: 'none', spellcheck: 'false'})
  const press = make('button', {class: 'btn btn-outline-primary'}, say('people.find.do'))
  const found = async () => {
    const wanted = name.value.trim().toLowerCase(), items = await list(await placeOf(where, wanted))
    return items[0]?.name.startsWith(wanted) ? '' : say('people.find.none')
  }
  return make('form', {class: 'line', role: 'search', onsubmit: sends(press, found)}, field(say('people.find'), name), press)
}

function turns(list, from, shown, total) {
  const range = say('people.range', {from: total ? from + 1 : 0, to: from + shown, total})
  const before = button(say('people.before'), 'btn-outline-secondary', () => list(Math.max(0, from - SIZE)))
  const after = button(say('people.after'), 'btn-outline-secondary', () => list(from + SIZE))
  before.disabled = !from
  after.disabled = from + shown >= total
  return make('nav', {class: 'buttons', 'aria-label': say('people.pages')}, before, make('span', {role: 'status'}, range), after)
}

/** A list: `draw` makes what stands there of the items of a page. One that has a single page gets a search where `searched` says so. */
export function pages(where, draw, searched = false) {
  const shown = make('div', {}), search = make('div', {}), form = find(where, list)
  let offset = 0

  async function list(from) {
    const asked = from == 0 ? await early(where)?.catch(() => null) : null
    const {items, total} = asked ?? await page(where, from, SIZE)
    if (!items.length && from) return list(Math.max(0, from - SIZE))
    offset = from
    const many = searched || total > SIZE
    if (many != search.contains(form)) search.replaceChildren(many ? form : '')
    shown.replaceChildren(many ? turns(list, from, items.length, total) : '', draw(items))
    // front/check measures until the frame that has it
    requestAnimationFrame(() => performance.mark(where.slice(1) + ' shown'))
    return items
  }

  return {parts: [search, shown], first: () => list(0), again: () => list(offset)}
}
