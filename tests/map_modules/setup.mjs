// What browsers have, and Debian's Node 18 has not: `node --import ./setup.mjs --test`.
import { webcrypto } from "node:crypto";

globalThis.crypto ??= webcrypto;
