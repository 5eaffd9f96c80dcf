// faces.js COUNT: plays COUNT writes, readings and received updates in Yjs, in this process, and prints the seconds that each took. A
// write is a transaction, and its update, which goes to a peer, is kept; the peer then takes these in one by one.
const Y = require('yjs')

const count = Number(process.argv[2])
const keys = Array.from({ length: 100 }, (_, index) => `k${index}`)
const document = new Y.Doc()
const map = document.getMap('document')
const updates = []
document.on('update', update => updates.push(update))

const timed = play => {
  const began = process.hrtime.bigint()
  for (let index = 0; index < count; index++) play(index)
  return Number(process.hrtime.bigint() - began) / 1e9
}

const wrote = timed(index => map.set(keys[index % 100], index))
let seen = 0
const read = timed(index => { seen += map.get(keys[index % 100]) })
const peer = new Y.Doc()
const received = timed(index => Y.applyUpdate(peer, updates[index]))
if (seen === 0 || peer.getMap('document').get(keys[(count - 1) % 100]) !== count - 1) process.exit(1)
console.log(wrote, read, received)
