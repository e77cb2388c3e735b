/* What the module uses of Node, beside what browsers have. */
declare module "node:fs/promises" {
    export function readFile(path: URL): Promise<Uint8Array>;
}
