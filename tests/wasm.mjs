// Drives the module as the program is driven: `wasm.mjs MODULE run MODEL SESSION`, `check MODEL CERTIFICATE`, and `memory MODEL
// SESSION`, which opens and closes the session many times and then gives it too little memory.
import { readFileSync } from "node:fs";
import { ModelRefused, OutOfMemory, load } from "../clients/js/livingstone.mjs";

const [file, word, modelName, name] = process.argv.slice(2);
const engine = await load(readFileSync(file));
const model = readFileSync(modelName);
const text = readFileSync(name);

// The lines of a session, as bytes.
function* lines() {
    let from = 0;
    while (from < text.length) {
        const found = text.indexOf(10, from);
        const end = found < 0 ? text.length : found;
        yield text.subarray(from, end);
        from = end + 1;
    }
}

function converse(most) {
    const opened = engine.open(model, most);
    try {
        const session = opened.session();
        try {
            let replies = "";
            for (const line of lines()) {
                if (session.hasEnded) break;
                replies += session.answer(line);
            }
            return replies;
        } catch (fault) {
            let stays = false;
            try {
                session.answer("time");
            } catch (again) {
                stays = again instanceof OutOfMemory;
            }
            if (!stays) throw new Error("want of memory did not stay");
            throw fault;
        } finally {
            session.close();
        }
    } finally {
        opened.close();
    }
}

function memory() {
    converse(0);
    const before = engine.memory;
    for (let i = 0; i < 200; i++) converse(0);
    if (engine.memory !== before) throw new Error(`memory grew from ${before} to ${engine.memory}`);
    for (let most = 16, short = 0; ; most += Math.ceil(most / 8)) {
        try {
            converse(most);
            if (short < 10) throw new Error("little memory sufficed");
            return;
        } catch (fault) {
            if (!(fault instanceof OutOfMemory)) throw fault;
            short += 1;
        }
    }
}

try {
    if (word === "run") process.stdout.write(converse(0));
    else if (word === "check") {
        const opened = engine.open(model);
        const line = opened.check(text);
        console.log(line === null ? "valid" : `invalid ${line}`);
        process.exitCode = line === null ? 0 : 9;
    } else if (word === "memory") {
        memory();
        console.log("enough");
    }
} catch (fault) {
    if (!(fault instanceof ModelRefused)) throw fault;
    console.error(fault.message);
    process.exitCode = 3;
}
