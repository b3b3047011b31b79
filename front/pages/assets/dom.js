// Parts of a page. Texts are put in as texts, never as HTML.
import {say} from './texts.js'

/** An element with attributes, listeners (`onclick`) and children. */
export function make(tag, attributes = {}, ...children) {
  const made = document.createElement(tag)
  for (const [name, value] of Object.entries(attributes)) {
    if (value === undefined || value === null || value === false) continue
    if (name.startsWith('on')) made.addEventListener(name.slice(2), value)
    else made.setAttribute(name, value === true ? '' : value)
  }
  made.append(...children.filter(child => child !== null && child !== undefined && child !== false))
  return made
}

/** A button that says what it does, also to who doesn't see the row that it stands in. */
export function button(label, style, onclick, spoken) {
  return make('button', {type: 'button', class: 'btn ' + style, onclick, 'aria-label': spoken}, label)
}

let last = 0

/** A field with its label above it. */
export function field(label, input, help) {
  input.id ||= 'field-' + ++last
  const told = help && make('div', {class: 'form-text', id: input.id + '-help'}, help)
  if (told) input.setAttribute('aria-describedby', told.id)
  return make('div', {class: 'field'}, make('label', {for: input.id, class: 'form-label'}, label), told, input)
}

export const input = attributes => make('input', {class: 'form-control', autocomplete: 'off', ...attributes})

/** A list to choose one of. */
export function choice(options, chosen, attributes = {}) {
  const made = make('select', {class: 'form-select', ...attributes})
  for (const [value, text] of options) made.append(make('option', {value, selected: value == chosen}, text))
  return made
}

export const lives = (seconds, chosen) => choice(seconds.map(it => [it, say('life.' + it)]), chosen)

/** A table with a head; it scrolls by itself on a narrow page, also by keys. */
export function table(caption, heads, rows, kind = '') {
  const head = make('thead', {}, make('tr', {}, ...heads.map(text => make('th', {scope: 'col'}, text))))
  const body = make('tbody', {}, ...rows)
  const made = make('table', {class: 'table align-middle ' + kind}, make('caption', {class: 'visually-hidden'}, caption), head, body)
  return make('div', {class: 'table-responsive', tabindex: 0, role: 'region', 'aria-label': caption}, made)
}

/** A row, whose first cell names it. */
export function row(first, ...cells) {
  return make('tr', {}, make('th', {scope: 'row'}, first), ...cells.map(cell => make('td', {}, ...[cell].flat())))
}

let form

/** A moment of the hub, in the reader's own way. */
export function moment(text) {
  if (!text) return say('never')
  form ??= new Intl.DateTimeFormat(document.documentElement.lang, {dateStyle: 'medium', timeStyle: 'short'})
  return form.format(new Date(text))
}

/** Lines of a field, without empty ones. */
export const lines = field => field.value.split('\n').map(line => line.trim()).filter(line => line)

export function heading(level, text, id) {
  return make('h' + level, {id}, text)
}

/** A part of a page under a heading of its own. */
export function section(title, ...parts) {
  const id = 'part-' + ++last
  return make('section', {'aria-labelledby': id}, heading(2, title, id), ...parts)
}

/** Something to be copied, as a code or a token. */
export function secret(label, text, said) {
  const shown = input({value: text, readonly: true, class: 'form-control font-monospace'})
  const copy = button(say('copy'), 'btn-outline-secondary', async () => {
    shown.select()
    await navigator.clipboard?.writeText(text).catch(() => {})
    said(say('copied'))
  })
  return make('div', {class: 'secret'}, field(label, shown), copy)
}
