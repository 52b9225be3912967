// A sample: a name, a number, a text, a template with a hole.
let total = 0x10 + 1_000;
print(`${total}: ${"done"}`);
