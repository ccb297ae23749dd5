// The server as a process: requests with their answers, notifications both ways.

const { spawn } = require('child_process');

class Server {
    // What the server tells by itself goes to the handler of its method.
    constructor(command, handlers) {
        this.handlers = handlers;
        this.waiting = new Map();
        this.requests = 0;
        this.read = Buffer.alloc(0);
        this.process = spawn(command, ['lsp'], { stdio: ['pipe', 'pipe', 'inherit'] });
        this.process.stdout.on('data', bytes => this.receive(bytes));
        this.process.on('exit', status => this.fail(new Error(`the server ended with ${status}`)));
        this.process.stdin.on('error', () => {}); // its end is told by the process
    }

    onError(handler) {
        this.process.on('error', error => {
            this.fail(error);
            handler(error);
        });
    }

    fail(error) {
        this.waiting.forEach(({ reject }) => reject(error));
        this.waiting.clear();
    }

    send(message) {
        const body = Buffer.from(JSON.stringify({ jsonrpc: '2.0', ...message }));
        this.process.stdin.write(`Content-Length: ${body.length}\r\n\r\n`);
        this.process.stdin.write(body);
    }

    notify(method, params) {
        this.send({ method, params });
    }

    request(method, params) {
        const id = ++this.requests;
        return new Promise((resolve, reject) => {
            this.waiting.set(id, { resolve, reject });
            this.send({ id, method, params });
        });
    }

    receive(bytes) {
        this.read = Buffer.concat([this.read, bytes]);
        for (;;) {
            const header = this.read.indexOf('\r\n\r\n');
            const length = header < 0 ? NaN : Number(/Content-Length: (\d+)/i.exec(this.read.toString('ascii', 0, header))[1]);
            const end = header + 4 + length;
            if (!(end <= this.read.length)) {
                return;
            }
            const message = JSON.parse(this.read.toString('utf8', header + 4, end));
            this.read = this.read.subarray(end);
            this.take(message);
        }
    }

    take({ id, method, params, result, error }) {
        if (method) {
            this.handlers[method]?.(params);
            return;
        }
        const asked = this.waiting.get(id);
        this.waiting.delete(id);
        if (error) {
            asked?.reject(new Error(error.message));
        } else {
            asked?.resolve(result);
        }
    }

    async stop() {
        await this.request('shutdown', null).catch(() => {});
        this.notify('exit', null);
    }
}

module.exports = { Server };
