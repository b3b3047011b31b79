// Services: their names and roles, and their pages where the site has told of one.
import {ask, path} from './hub.js'
import {button, field, input, make, row, section, table} from './dom.js'
import {carry, sends, sure} from './frame.js'
import {pages} from './pages.js'
import {say} from './texts.js'
import {holds} from './rights.js'
import site from './site.js'

let may = false, list

function remove(service) {
  return button(say('delete'), 'btn-outline-danger', async event => {
    if (await sure(say('services.delete.sure', {service}), say('delete'))) carry(event.target, async () => {
      await ask('DELETE', path('services', service))
      await list.again()
      return say('services.deleted', {service})
    })
  }, say('services.delete.of', {service}))
}

function serviceRow(service) {
  const name = service.name, url = site.servers + `/services/${name}/`
  const title = site.services[name] ? make('a', {href: url}, name) : name
  return row(title, (service.roles ?? []).join(', ') || say('none'), may ? remove(name) : '')
}

function draw(services) {
  const heads = ['name', 'roles', 'do'].map(name => say('people.col.' + name))
  return services.length ? table(say('people.services'), heads, services.map(serviceRow)) : make('p', {}, say('services.none'))
}

function add() {
  const name = input({name: 'service', required: true, autocapitalize: 'none'})
  const press = make('button', {class: 'btn btn-primary'}, say('people.add.do'))
  const done = async () => {
    const service = name.value.trim()
    await ask('POST', path('services', service))
    name.value = ''
    await list.again()
    return say('services.made', {service})
  }
  return section(say('services.add'), make('form', {class: 'line', onsubmit: sends(press, done)}, field(say('services.name'), name), press))
}

export async function fill(panel, me) {
  may = await holds('admin:services', me)
  list = pages('/services', draw)
  panel.replaceChildren(make('h2', {class: 'visually-hidden'}, say('people.services')), ...list.parts, may ? add() : '')
  await list.first()
}
