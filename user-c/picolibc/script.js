print('JavaScript', 7 / 2, Math.PI.toFixed(6), 0xff.toString(2), (1e21).toString(), -0.1 + 0.3);
var list = [];
for (var i = 0; i < 500; i++) list.push((i * 7919) % 1009);
list.sort(function (a, b) { return a - b; });
print(list.length, list[0], list[250], list[499]);
print('hello world'.replace(/o/g, '0'), 'a,b,,c'.split(',').length, 'abc'.toUpperCase());
print(JSON.stringify({ name: 'xv6', numbers: [1, 2.5, null, true], inner: { text: 'a\n"b"' } }));
var back = JSON.parse('{"x":[1,{"y":"\\u00e9"}]}');
print(back.x[1].y.charCodeAt(0), Object.keys(back).join());
function fib(n) { return n < 2 ? n : fib(n - 1) + fib(n - 2); }
print(fib(15));
try { undefinedName(); } catch (e) { print(e.name); }
try { (function f() { f(); })(); } catch (e) { print(e instanceof RangeError); }
var counter = (function () { var n = 0; return function () { return ++n; }; })();
counter(); print(counter(), [3, 1, 2].map(function (x) { return x * x; }).reduce(function (a, b) { return a + b; }));
print(new Date(1000000000000).toISOString(), encodeURIComponent('a b&c'), parseInt('077', 8));
var words = {}; 'the cat and the dog and the bird'.split(' ').forEach(function (w) { words[w] = (words[w] || 0) + 1; });
print(JSON.stringify(words));
