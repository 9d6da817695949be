let total = 0;
function add(price, count) {
  total += price * count;
}
let total = add(2, 3);
