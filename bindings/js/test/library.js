// The library as targets/build writes it.
import { readFileSync } from 'node:fs';
import { load } from '../honecerise.js';

export const root = new URL('../../../', import.meta.url);
export const bytes = readFileSync(new URL('target/wasm32/honecerise.wasm', root));
export const fresh = () => load(bytes);

/** What a call is refused with: its kind. */
export function refusal(call) {
    try {
        call();
    } catch (error) {
        if (error.name === 'Refusal') return error.kind;
        throw error;
    }
    return 'taken';
}
