({ cl\u0061ss: 1, get f\u006fr() {} }).\u0069f;
class A { st\u0061tic() {} d\u{6f}() {} }
l\u0065t = aw\u0061it;
