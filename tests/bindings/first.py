import ecma
print(ecma.format('f( a=>b,{...c} )'), end='')
for name in ecma.names('let total = 1; print(total)'):
    print(name['name'], name['use'], name['binding'])
