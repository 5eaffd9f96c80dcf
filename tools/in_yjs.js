// NODE_PATH=/usr/share/nodejs node tools/in_yjs.js SCRIPT: does what a script says on documents of Yjs (Debian's node-yjs), a document
// for each engine and a transaction for each step, and prints a reply for each line: a bundle's is its bytes, where jdoc counts its
// operations. A number at the head of a list goes in at index 0, so what two engines insert there is in Yjs's order.
// It knows the steps that tools/measure.py writes: push, step, hello, bundle, deliver, and questions for keys and items.
const Y = require('yjs');
const { readFileSync } = require('fs');

class Engine {
    constructor(own, batch) {
        this.doc = new Y.Doc();
        this.doc.clientID = own;
        this.root = this.doc.getMap('root');
        this.batch = batch;
        this.queue = [];
        this.serial = 0;
    }

    submit(item) {
        this.queue.push(item);
        this.serial += 1;
        return this.serial;
    }

    step() {
        const batch = this.queue.splice(0, this.batch);
        this.doc.transact(() => {
            for (const item of batch) {
                item instanceof Uint8Array ? Y.applyUpdate(this.doc, item) : this.change(item);
            }
        });
        return batch.length;
    }

    change([verb, path, value]) {
        const last = path[path.length - 1];
        const at = path.slice(0, -1).reduce((at, key) => at.get(key) ?? at.set(key, new Y.Map()), this.root);
        if (verb === 'insert') {
            at.insert(last, [value]);
        } else if (verb === 'delete') {
            at.delete(last);
        } else {
            at.set(last, Array.isArray(value) ? new Y.Array() : value);
        }
    }

    answer([what, path]) {
        const at = path.reduce((at, key) => at.get(key), this.root);
        return what === 'keys' ? [...at.keys()].sort() : at.toArray();
    }
}

function main() {
    const lines = readFileSync(process.argv[2], 'utf8').trimEnd().split('\n').map((line) => JSON.parse(line));
    const engines = lines[0][1].map((row) => new Engine(row[0], row[5]));
    const messages = [];
    const replies = [];
    const sent = (message, said) => ['message', messages.push(message) - 1, said];
    const replied = {
        push: (engine, [, , , command]) => ['ticket', engine.submit(command)],
        step: (engine) => ['published', engine.step()],
        hello: (engine) => sent(Y.encodeStateVector(engine.doc), 0),
        bundle: (engine, [, , , to]) => {
            const bundle = Y.encodeStateAsUpdate(engine.doc, messages[to]);
            return sent(bundle, bundle.length);
        },
        deliver: (engine, [, , , number]) => ['received', engine.submit(messages[number]), 1],
        ask: (engine, [, , , question]) => ['reading', 0, engine.answer(question)],
    };
    for (const line of lines.slice(1)) {
        replies.push(JSON.stringify(replied[line[0]](engines[line[1]], line)));
    }
    process.stdout.write(replies.join('\n') + '\n');
}

main();
