// Livingstone in JavaScript, over the module that tools/wasm makes: in node and in a page.
//
//     import { load } from "./livingstone.mjs";
//     const engine = await load(bytes);                       // the bytes of livingstone.wasm
//     const model = engine.open(text);                        // throws ModelRefused
//     const session = model.session();
//     session.answer("command v.cmd = open");                 // "ok\n"
//     session.answer("diagnose");
//     model.check(certificate);                               // null where it is valid, else the first bad line
//     session.close();
//     model.close();
//
// A call for which memory was wanting throws OutOfMemory, and a session answers so for good from then on.

const DONE = 0;
const REFUSED = 1;

const encoder = new TextEncoder();
const decoder = new TextDecoder();

/** A model's text is refused: `code` is the number behind the M, and `line` is counted from 1. */
export class ModelRefused extends Error {
    constructor(line, code) {
        super(`model ${line} M${String(code).padStart(2, "0")}`);
        this.line = line;
        this.code = code;
    }
}

/** Memory was wanting. */
export class OutOfMemory extends Error {
    constructor() {
        super("out of memory");
    }
}

/** Instantiates the module, of its bytes or of a compiled module. */
export async function load(module) {
    const made = await WebAssembly.instantiate(module, {});
    return new Engine((made.instance ?? made).exports);
}

class Engine {
    constructor(module) {
        this.module = module;
    }

    /** The bytes of memory that the module has now. They never become fewer. */
    get memory() {
        return this.module.memory.buffer.byteLength;
    }

    /** Opens a model. `most` is how many bytes it and its sessions may take; 0 sets no limit. */
    open(text, most = 0) {
        return this.#with(text, 32, (at, length, room) => {
            this.#end(this.module.livingstone_open_model(at, length, BigInt(most), room, room + 8n), room + 8n);
            return new Model(this, this.view().getBigUint64(Number(room), true));
        });
    }

    /** Judges a certificate over an open model. */
    check(model, text) {
        return this.#with(text, 16, (at, length, room) => {
            const end = this.module.livingstone_check(model, at, length, room);
            return end === REFUSED ? Number(this.view().getBigUint64(Number(room) + 8, true)) : (this.#end(end), null);
        });
    }

    /** Opens a session over an open model. */
    session(model) {
        return this.#with("", 8, (at, length, room) => {
            this.#end(this.module.livingstone_open_session(model, room));
            return this.view().getBigUint64(Number(room), true);
        });
    }

    /** What a session replies to a line. */
    answer(session, line) {
        return this.#with(line, 16, (at, length, room) => {
            this.#end(this.module.livingstone_answer(session, at, length, room));
            const reply = Number(this.view().getBigUint64(Number(room), true));
            const long = Number(this.view().getBigUint64(Number(room) + 8, true));
            return decoder.decode(new Uint8Array(this.module.memory.buffer, reply, long));
        });
    }

    view() {
        return new DataView(this.module.memory.buffer);
    }

    /** Throws what a call that isn't done ended with. */
    #end(end, refusal) {
        if (end === DONE) return;
        if (end !== REFUSED) throw new OutOfMemory();
        const view = this.view();
        throw new ModelRefused(
            Number(view.getBigUint64(Number(refusal) + 8, true)),
            view.getUint32(Number(refusal), true),
        );
    }

    /** Puts a text and some room into the module's memory for the time of a call. */
    #with(text, room, call) {
        const bytes = typeof text === "string" ? encoder.encode(text) : text;
        const at = this.module.malloc(BigInt(bytes.length + room + 8));
        if (at === 0n) throw new OutOfMemory();
        try {
            const start = Number(at);
            new Uint8Array(this.module.memory.buffer, start, room).fill(0);
            new Uint8Array(this.module.memory.buffer, start + room, bytes.length).set(bytes);
            return call(at + BigInt(room), BigInt(bytes.length), at);
        } finally {
            this.module.free(at);
        }
    }
}

class Model {
    #engine;
    #at;

    constructor(engine, at) {
        this.#engine = engine;
        this.#at = at;
    }

    #open() {
        if (this.#at === 0n) throw new Error("the model was closed");
        return this.#at;
    }

    /** A session at its start. */
    session() {
        return new Session(this.#engine, this.#engine.session(this.#open()));
    }

    /** The first bad line of a certificate, or null where it is valid. */
    check(certificate) {
        return this.#engine.check(this.#open(), certificate);
    }

    /** Lets the model go; its sessions go on. */
    close() {
        if (this.#at !== 0n) this.#engine.module.livingstone_close_model(this.#at);
        this.#at = 0n;
    }
}

class Session {
    #engine;
    #at;

    constructor(engine, at) {
        this.#engine = engine;
        this.#at = at;
    }

    #open() {
        if (this.#at === 0n) throw new Error("the session was closed");
        return this.#at;
    }

    /** Does what a line asks for, which is given without its end, and answers the text of the reply. */
    answer(line) {
        return this.#engine.answer(this.#open(), line);
    }

    /** Whether a `quit` was accepted. */
    get hasEnded() {
        return this.#engine.module.livingstone_has_ended(this.#open()) !== 0;
    }

    close() {
        if (this.#at !== 0n) this.#engine.module.livingstone_close_session(this.#at);
        this.#at = 0n;
    }
}
