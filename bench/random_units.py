"""Writes random units of C, ended by null bytes. A third follow the grammar, the others but for one to three tokens."""
import random
import sys

# T is a typedef name at first, and a, b, c, d are objects; each name may be declared anew.
BEGINNING = 'typedef int T ; int a , b , c , d ;'.split()

# For each class of nodes its forms, the shortest first.
GRAMMAR = {
    'unit': ['external', 'external external external'],
    'external': ['declaration', 'specifiers declarator block', 'specifiers name ( parameters ) block'],
    'declaration': ['specifiers inits ;', 'specifiers inits ;', 'specifiers inits ;', 'typedef specifiers name ;',
                    'specifiers ;', '_Static_assert ( test , "s" ) ;'],
    'inits': ['init', 'init', 'init , inits'],
    'init': ['declarator', 'declarator = initializer'],
    'initializer': ['operand', 'assigned', '{ items }', '{ items , }'],
    'items': ['initializer', '. name = initializer', '[ test ] = initializer', 'items , items'],
    'specifiers': ['type', 'type', 'qualifier type', 'type qualifier'],
    'qualifier': ['const', 'volatile'],
    'type': ['int', 'T', 'T', 'unsigned long', 'struct s', 'union tag { members }', 'enum tag { enumerators }',
             'enum T'],
    'tag': ['', 's', 'T'],
    'members': ['specifiers declarator ;', 'specifiers declarator , declarator ; members', 'specifiers ;'],
    'enumerators': ['name', 'name = test', 'enumerators , enumerators', 'name ,'],
    'declarator': ['name', 'name', '* declarator', '* const declarator', '( declarator )', 'name [ test ]', 'name [ ]',
                   'name ( parameters )', '( * declarator ) ( parameters )', '( declarator ) [ test ]'],
    'abstract': ['', '*', '* abstract', '( abstract2 )', '[ test ]', '( parameters )', '( * ) ( parameters )'],
    'abstract2': ['*', '* abstract', '( parameters )', '[ ]'],
    'parameters': ['', 'void', 'parameter', 'parameter , parameter', 'parameter , ...'],
    'parameter': ['specifiers abstract', 'specifiers declarator', 'specifiers ( name )'],
    'name': ['a', 'e', 'f', 'g', 'h', 'k', 'm', 'T'],
    'test': ['1', 'a', 'operand', 'test + test', 'test ? test : test', 'test && test',
             'sizeof ( specifiers abstract )'],
    'operand': ['a', 'b', 'c', '1', '"s"', "'c'", 'f', '( expression )', 'operand [ expression ]',
                'operand ( assigned , assigned )', 'operand . name', 'operand -> name', 'operand ++', '- operand',
                '* operand', '& operand', '-- operand',
                'sizeof operand', 'sizeof ( specifiers abstract )', '( specifiers abstract ) operand', '( T ) operand'],
    'assigned': ['operand', 'operand + operand', 'operand * operand', 'operand << operand', 'operand == operand',
                 'operand || operand', 'operand = assigned', 'operand ? expression : operand', 'assigned - assigned'],
    'expression': ['assigned', 'assigned', 'assigned , expression'],
    'block': ['{ }', '{ item item item item }'],
    'item': ['statement', 'statement', 'declaration'],
    'statement': ['expression ;', 'expression ;', 'T * a ;', 'a * b ;', 'T ( a ) ;', ';', 'block',
                  'if ( expression ) statement', 'if ( expression ) statement else statement',
                  'while ( expression ) statement',
                  'do statement while ( expression ) ;', 'for ( expression ; ; expression ) statement',
                  'for ( declaration ; ) statement', 'return expression ;', 'return ;', 'break ;',
                  'switch ( expression ) { case test : item default : statement }'],
}
WORDS = {word for forms in GRAMMAR.values() for form in forms for word in form.split()}
TOKENS = sorted(WORDS - GRAMMAR.keys())


def tokens_of(word, depth):
    if word not in GRAMMAR:
        return [word]
    forms = GRAMMAR[word]
    form = random.choice(forms) if depth or forms == GRAMMAR['name'] else forms[0]
    return [token for part in form.split() for token in tokens_of(part, max(depth - 1, 0))]


def changed(tokens):
    for _ in range(random.choice([1, 1, 2, 3])):
        at = random.randrange(len(tokens))
        how = random.randrange(4)
        if how == 0:
            tokens.insert(at, random.choice(TOKENS))
        elif how == 1:
            tokens[at] = random.choice(TOKENS)
        elif how == 2 and len(tokens) > 1:
            del tokens[at]
        else:
            other = random.randrange(len(tokens))
            tokens[at], tokens[other] = tokens[other], tokens[at]
    return tokens


random.seed(sys.argv[1])
for number in range(int(sys.argv[2])):
    tokens = tokens_of('unit', 9)
    while len(tokens) > 200:
        tokens = tokens_of('unit', 9)
    sys.stdout.write(' '.join(BEGINNING + (tokens if number % 3 == 0 else changed(tokens))) + '\0')
