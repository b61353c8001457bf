// What the maker put into the page: version, digest, the module, vectors, and the library's own numbers, by their names in crates/block_type.

const DATA = JSON.parse(document.getElementById("data").textContent);
const N = DATA.numbers;
