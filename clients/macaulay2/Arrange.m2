-- -*- coding: utf-8 -*-
newPackage(
    "Arrange",
    Version => "1.0",
    Headline => "proved answers about hyperplane arrangements over prime fields",
    Keywords => {"Algebraic Geometry", "Matroids", "Interfaces"},
    Configuration => {"program" => ""},
    PackageExports => {"HyperplaneArrangements"},
    DebuggingMode => false
    )

export {
    -- types
    "ArrangeLimit",
    "Comparison",
    "Freeness",
    -- methods
    "arrangeAomoto",
    "arrangeBetti",
    "arrangeCharacteristic",
    "arrangeCheck",
    "arrangeCircuits",
    "arrangeDer",
    "arrangeFlats",
    "arrangeFree",
    "arrangeGB",
    "arrangeHyperplanes",
    "arrangeNBC",
    "arrangeNormal",
    "arrangePoincare",
    "arrangePoint",
    "arrangeRank",
    "arrangeReduction",
    "arrangeResolution",
    "arrangeTriple",
    "verifyCofactor",
    "verifyFreeness",
    -- the name of an option
    "Prime"
    }

------------------------------------------------------------------------------
-- WHAT COMES BACK
------------------------------------------------------------------------------
-- the program says so where a question goes past a limit: an answer, and no error
ArrangeLimit = new Type of HashTable
ArrangeLimit.synonym = "limit of the program arrange"
net ArrangeLimit := L -> net ("limit " | L#"limit" | " of " | L#"question")
toString ArrangeLimit := L -> "limit " | L#"limit" | " of " | L#"question"

-- whether D(A, m) is free: a basis with its certificate, or how many generators it needs
Freeness = new Type of HashTable
Freeness.synonym = "freeness of a module of derivations"
net Freeness := F -> (
    if F#"isFree" then net ("free with exponents " | toString F#"exponents")
    else net ("not free, with " | toString F#"generators" | " minimal generators"))

-- where the program and Macaulay2 agree
Comparison = new Type of HashTable
Comparison.synonym = "comparison with the program arrange"
comparisonOrder = {"hyperplanes", "flats over the given ring", "flats", "poincare", "circuits", "normal", "der", "betti", "isFree",
    "certificate"}
net Comparison := C -> stack for name in comparisonOrder list (
    if not C#?name then continue;
    net (name | ": ") | (
	if C#name === true then net "agree"
	else if C#name === false then net "DIFFER"
	else net C#name))

------------------------------------------------------------------------------
-- THE PROGRAM
------------------------------------------------------------------------------
listedPrimes = {5, 7, 13, 31, 101, 251, 32003}
longestNumber = 10^10	       -- numbers of a script have at most ten digits

programName = () -> (
    configured := Arrange.Options.Configuration#"program";
    fromEnvironment := getenv "ARRANGE";
    if configured =!= "" then configured
    else if fromEnvironment =!= "" then fromEnvironment
    else "arrange")

quoted = s -> "'" | replace("'", "'\"'\"'", s) | "'"

endings = hashTable {
    2 => "could not read the script",
    3 => "could not write its answers",
    4 => "takes no script of more than 1,048,576 bytes",
    5 => "was given words on its command line",
    6 => "ran out of memory",
    7 => "was not given the words of its command line",
    8 => "could not be built",
    126 => "cannot be run",
    127 => "was not found: give its path in the environment variable ARRANGE, or in the configuration of this package"
    }

firstLine = s -> (
    L := select(lines s, l -> match("[^[:space:]]", l));
    if #L == 0 then "" else ": " | first L)

-- what the program writes for a script, given as a list of lines
runProgram' = script -> (
    name := programName();
    base := temporaryFileName();
    parts := {".arr", ".out", ".err", ".status"} / (suffix -> base | suffix);
    parts#0 << concatenate apply(script, l -> l | "\n") << close;
    run concatenate("{ ", quoted name, " < ", parts#0, " > ", parts#1, "; echo $? > ", parts#3, "; } 2> ", parts#2);
    said := apply(drop(parts, 1), f -> if fileExists f then get f else "");
    scan(select(parts, fileExists), removeFile);
    (text, failure, status) := toSequence said;
    if not match("^[0-9]+\n$", status) then error("arrange: the program ", name, " could not be run");
    code := value status;
    if code > 1 then error("arrange: the program ", name, " ",
	if endings#?code then endings#code
	else if code > 128 then "was killed by signal " | toString(code - 128)
	else "ended with the unknown status " | toString code,
	if code > 8 then "" else firstLine failure);
    (text, code))

------------------------------------------------------------------------------
-- READING WHAT IT WRITES
------------------------------------------------------------------------------
-- a reader goes through the lines of the text
newReader = text -> (
    if text =!= "" and last text =!= "\n" then cutOff();
    new MutableHashTable from {"lines" => if text === "" then {} else drop(separate("\n", text), -1), "at" => 0})

cutOff = () -> error "arrange: the program's answer is cut off"

unreadable = line -> error("arrange: the program's answer cannot be read: ", line)

nextLine = reader -> (
    if reader#"at" >= #(reader#"lines") then cutOff();
    line := reader#"lines"#(reader#"at");
    reader#"at" = reader#"at" + 1;
    line)

-- the rest of a line behind its first words
behind = (head, line) -> (
    if #line < #head or substring(0, #head, line) =!= head then unreadable line;
    substring(#head, line))

readNumber = s -> if match("^-?[0-9]+$", s) then value s else unreadable s

readNumbers = s -> if s === "" then {} else apply(separate(" ", s), readNumber)

smallNumbers = hashTable apply(65, i -> toString i => i)

-- the members of a set, counted from 0
readSet = s -> (
    if #s < 2 or s#0 =!= "{" or s#(#s - 1) =!= "}" then unreadable s;
    inner := substring(1, #s - 2, s);
    if inner === "" then {}
    else apply(separate(" ", inner), w -> if smallNumbers#?w then smallNumbers#w - 1 else unreadable s))

-- a factor such as x3^2 or e3, by the letter of the variables of R
readFactor = (R, letter, s) -> (
    if not match("^" | letter | "[0-9]+(\\^[0-9]+)?$", s) then return readNumber s;
    parts := apply(separate("\\^", substring(1, s)), value);
    if parts#0 < 1 or parts#0 > numgens R then unreadable s;
    if #parts == 1 then R_(parts#0 - 1) else (R_(parts#0 - 1))^(parts#1))

readSum = (R, letter, s) -> sum(separate(" [+] ", s), term -> product(separate("[*]", term), f -> readFactor(R, letter, f))) + 0_R

-- a vector of so many polynomials with its degree
readGraded = (R, width, line) -> (
    found := regex("^([0-9]+): \\((.*)\\)$", line);
    if found === null then unreadable line;
    entries' := separate(", ", substring(found#2#0, found#2#1, line));
    if #entries' =!= width then unreadable line;
    (value substring(found#1#0, found#1#1, line), apply(entries', s -> readSum(R, "x", s))))

-- the map with these vectors as columns, whose target has its degrees
columnsMap = (target', vectors) -> map(target', (ring target')^(apply(vectors, v -> -v#0)),
    if #vectors == 0 then 0 else transpose apply(vectors, v -> v#1))

homogeneous = M -> if isHomogeneous M then M else error "arrange: the program's answer has wrong degrees"

limitsOf = hashTable {
    "flats" => {"flats"}, "poincare" => {"flats"}, "characteristic" => {"flats"}, "triple" => {"flats"},
    "circuits" => {"circuits"}, "nbc" => {"nbc"}, "aomoto" => {"aomoto"},
    "gb" => {"pairs", "degree"}, "der" => {"pairs", "degree"}, "resolve" => {"pairs", "degree"}, "free" => {"pairs", "degree"},
    "hyperplanes" => {}, "point" => {}, "rank" => {}, "normal" => {}
    }

-- The readers of the answers: each takes what stands behind the head, the reader, and what was prepared for the question.
readers = hashTable {
    "hyperplanes" => (rest, reader, P) -> (
	if rest =!= toString P#"count" | " in " | toString P#"dimension" then unreadable rest;
	for i from 1 to P#"count" list (
	    c := readNumbers nextLine reader;
	    if #c =!= P#"dimension" then unreadable toString c;
	    sum(#c, j -> c#j * (P#"ring")_j) + 0_(P#"ring"))),
    "point" => (rest, reader, P) -> (
	c := readNumbers rest;
	if #c =!= P#"dimension" then unreadable rest;
	apply(c, v -> v_(P#"field"))),
    "rank" => (rest, reader, P) -> readNumber rest,
    "flats" => (rest, reader, P) -> for i from 1 to readNumber rest list (
	line := nextLine reader;
	found := regex("^([0-9]+): ", line);
	if found === null then unreadable line;
	(value substring(found#1#0, found#1#1, line), readSet substring(found#0#1, line))),
    "poincare" => (rest, reader, P) -> readNumbers rest,
    "characteristic" => (rest, reader, P) -> readNumbers rest,
    "triple" => (rest, reader, P) -> for word in {"whole: ", "deleted: ", "restricted: "} list readNumbers behind(word, nextLine reader),
    "circuits" => (rest, reader, P) -> for i from 1 to readNumber rest list readSet nextLine reader,
    "nbc" => (rest, reader, P) -> for i from 1 to readNumber rest list readSet nextLine reader,
    "normal" => (rest, reader, P) -> readSum(P#"exterior", "e", rest),
    "aomoto" => (rest, reader, P) -> readNumbers rest,
    "gb" => (rest, reader, P) -> readVectors(readNumber rest, reader, P),
    "der" => (rest, reader, P) -> readVectors(readNumber rest, reader, P),
    "resolve" => (rest, reader, P) -> (
	target' := (P#"ring")^(P#"dimension");
	for k from 0 to readNumber rest - 1 list (
	    counts := readNumbers behind("betti " | toString k | ": ", nextLine reader);
	    vectors := for i from 1 to sum counts list readGraded(P#"ring", rank target', nextLine reader);
	    if tally apply(vectors, first) =!= tally flatten apply(#counts, d -> toList(counts#d : d)) then
	    error "arrange: the program's answer has wrong degrees";
	    M := homogeneous columnsMap(target', vectors);
	    target' = source M;
	    M)),
    "free" => (rest, reader, P) -> (
	if rest =!= "yes" then return new Freeness from {"isFree" => false, "generators" => readNumber behind("no ", rest)};
	basis' := readVectors(P#"dimension", reader, P);
	point := readNumbers behind("point: ", nextLine reader);
	if nextLine reader =!= "inverse:" then unreadable rest;
	inverse' := for i from 1 to P#"dimension" list readNumbers nextLine reader;
	if #point =!= P#"dimension" or any(inverse', row -> #row =!= P#"dimension") then unreadable toString inverse';
	new Freeness from {
	    "isFree" => true,
	    "exponents" => flatten degrees source basis',
	    "basis" => basis',
	    "point" => apply(point, v -> v_(P#"field")),
	    "inverse" => matrix(P#"field", inverse')})
    }

readVectors = (count, reader, P) -> (
    vectors := for i from 1 to count list readGraded(P#"ring", P#"dimension", nextLine reader);
    homogeneous columnsMap((P#"ring")^(P#"dimension"), vectors))

readAnswer = (question, reader, P) -> (
    word := first separate(" ", question);
    line := nextLine reader;
    rest := behind(word | " A:", line);
    if word =!= "triple" or rest =!= "" then rest = behind(" ", rest);
    found := regex("^limit ([a-z]+)$", rest);
    if found === null then return (readers#word)(rest, reader, P);
    kind := substring(found#1#0, found#1#1, rest);
    if not member(kind, limitsOf#word) then unreadable line;
    new ArrangeLimit from {"question" => word, "limit" => kind})

-- the answers to some questions about the arrangement that was prepared, from one run of the program
ask = (P, limits, questions) -> (
    script := join({"field " | toString P#"prime"}, limits, {P#"let"}, questions);
    (text, code) := runProgram' script;
    reader := newReader text;
    if code == 1 then (
	L := reader#"lines";
	found := if #L == 0 then null else regex("^refused line ([0-9]+): (.+)$", last L);
	if found === null then cutOff();
	number := value substring(found#1#0, found#1#1, last L);
	words := substring(found#2#0, found#2#1, last L);
	if number < 1 or number > #script then unreadable last L;
	error("arrange refused line ", toString number, ", ", shortened script#(number - 1), ": ", words,
	    if match("^(syntax|not built)", words) then "; the program is not of the version that this package needs" else ""));
    answers := apply(questions, q -> readAnswer(q, reader, P));
    if reader#"at" =!= #(reader#"lines") then unreadable nextLine reader;
    answers)

shortened = s -> if #s > 60 then substring(0, 57, s) | "..." else s

------------------------------------------------------------------------------
-- WHAT GOES IN
------------------------------------------------------------------------------
-- the residue of a number, which stands at some place
residue = (c, p, place) -> (
    if instance(c, ZZ) then c % p
    else if instance(c, QQ) then (
	if denominator c % p == 0 then error("arrange: ", toString c, " in ", place, " has no residue modulo ", toString p);
	lift((numerator c)_(ZZ/p) / (denominator c)_(ZZ/p), ZZ) % p)
    else if instance(c, RingElement) and ring c === ZZ/p then lift(c, ZZ) % p
    else error("arrange: ", toString c, " in ", place, " is no number of ZZ, QQ or ZZ/", toString p))

primeOf = (kk, given) -> (
    isModular := instance(kk, QuotientRing) and ambient kk === ZZ and isPrime char kk;
    if not isModular and kk =!= QQ and kk =!= ZZ then
    error("arrange: the forms have coefficients in ", toString kk, ": expected ZZ/p, or QQ or ZZ with the option Prime");
    if not isModular and given === null then
    error("arrange: the forms have coefficients in ", toString kk, ": give a prime with the option Prime");
    if isModular and given =!= null and given =!= char kk then
    error("arrange: the forms have coefficients in ", toString kk, ", and the option Prime is ", toString given);
    p := if isModular then char kk else given;
    if not member(p, listedPrimes) then
    error("arrange: ", toString p, " is not one of the primes 5, 7, 13, 31, 101, 251, 32003");
    p)

-- the arrangement over a polynomial ring, with its forms in the same order
overPolynomials = A -> (
    if isPolynomialRing ring A then A
    else (
	if not A.cache#?"arrange over polynomials" then A.cache#"arrange over polynomials" = prune A;
	A.cache#"arrange over polynomials"))

-- Everything that a question needs of A over ZZ/p, and the errors that need no program. It is kept with A.
prepare = (A, given) -> (
    p := primeOf(coefficientRing ring A, given);
    key := "arrange over ZZ/" | toString p;
    if not A.cache#?key then A.cache#key = prepared(overPolynomials A, p);
    A.cache#key)

prepared = (A, p) -> (
    R := ring A;
    if not isPolynomialRing R or not isCommutative R then error "arrange: expected forms in a commutative polynomial ring";
    if any(degrees R, d -> d =!= {1}) then error "arrange: expected variables of degree 1";
    place := i -> "hyperplane " | toString i | ", " | toString (hyperplanes A)#i | ",";
    forms := apply(#hyperplanes A, i -> (
	    h := (hyperplanes A)#i;
	    constant := coefficient(1_R, h);
	    if constant != 0 then error("arrange: ", place i, " has a constant: expected a central arrangement, such as its cone");
	    apply(numgens R, j -> residue(coefficient(R_j, h), p, place i))));
    seen := new MutableHashTable;
    scan(#forms, i -> (
	    lead := position(forms#i, c -> c != 0);
	    if lead === null then error("arrange: ", place i, " is zero over ZZ/", toString p);
	    scale := lift(1 / (forms#i#lead)_(ZZ/p), ZZ);
	    monic := apply(forms#i, c -> (scale * c) % p);
	    if seen#?monic then error("arrange: ", place i, " is a multiple of ", place seen#monic, " over ZZ/", toString p,
		": take each once and give multiplicities");
	    seen#monic = i));
    Rp := if coefficientRing R === ZZ/p then R else (ZZ/p)(monoid R);
    reduction := if Rp === R then A else arrangement(apply(forms, c -> sum(#c, j -> c#j * Rp_j)), Rp);
    hashTable {
	"prime" => p,
	"field" => ZZ/p,
	"ring" => Rp,
	"dimension" => numgens R,
	"count" => #forms,
	"reduction" => reduction,
	"let" => concatenate("let A = forms ", toString numgens R, " [", demark(", ", apply(forms, spaced)), "]")
	})

spaced = L -> demark(" ", apply(L, toString))

multiplicitiesText = m -> (
    scan(#m, i -> if not instance(m#i, ZZ) or abs m#i >= longestNumber then
	error("arrange: multiplicity ", toString i, ", ", toString m#i, ", is no number from 0 to 20"));
    "[" | spaced m | "]")

limitLines = opts -> join(
    limitLine("pairs", opts.PairLimit, "PairLimit"),
    limitLine("degree", opts.DegreeLimit, "DegreeLimit"))

limitLine = (word, n, option) -> (
    if n === null or n === infinity or n === {} then {}
    else if instance(n, ZZ) and n >= 0 and n < longestNumber then {"limit " | word | " " | toString n}
    else error("arrange: expected a number for the option ", option))

-- one question, with what is made of its answer, where it is no limit
answer = (A, given, limits, question, make) -> (
    P := prepare(A, given);
    a := first ask(P, limits, {question});
    if instance(a, ArrangeLimit) then a else make(a, P))

-- the polynomial with these coefficients, in the ring in which Poincaré polynomials are
inDegreesRing = (c, P) -> (
    D := degreesRing ring P#"reduction";
    sum(#c, k -> c#k * D_0^k) + 0_D)

byRank = (A, found) -> (
    top := max apply(found, first);
    parts := partition(first, found);
    apply(top + 1, r -> if parts#?r then apply(parts#r, f -> flat(A, f#1, Validate => false)) else {}))

------------------------------------------------------------------------------
-- THE QUESTIONS
------------------------------------------------------------------------------
simple = {Prime => null}
limited = {Prime => null, PairLimit => null, DegreeLimit => null}
unchanged = (a, P) -> a

arrangeReduction = method(Options => simple)
arrangeReduction Arrangement := Arrangement => o -> A -> (prepare(A, o.Prime))#"reduction"

arrangeHyperplanes = method(Options => simple)
arrangeHyperplanes Arrangement := List => o -> A -> answer(A, o.Prime, {}, "hyperplanes A", unchanged)

arrangePoint = method(Options => simple)
arrangePoint Arrangement := List => o -> A -> answer(A, o.Prime, {}, "point A", unchanged)

arrangeRank = method(Options => simple)
arrangeRank Arrangement := ZZ => o -> A -> answer(A, o.Prime, {}, "rank A", unchanged)

arrangeFlats = method(Options => simple)
arrangeFlats Arrangement := List => o -> A -> answer(A, o.Prime, {}, "flats A", (a, P) -> byRank(A, a))

arrangePoincare = method(Options => simple)
arrangePoincare Arrangement := RingElement => o -> A -> answer(A, o.Prime, {}, "poincare A", inDegreesRing)

arrangeCharacteristic = method(Options => simple)
arrangeCharacteristic Arrangement := RingElement => o -> A -> answer(A, o.Prime, {}, "characteristic A", inDegreesRing)

arrangeTriple = method(Options => simple)
arrangeTriple (Arrangement, ZZ) := List => o -> (A, i) -> (
    if i < 0 or i >= #hyperplanes A then error("arrange: there is no hyperplane ", toString i);
    answer(A, o.Prime, {}, "triple A " | toString(i + 1), (a, P) -> apply(a, c -> inDegreesRing(c, P))))

arrangeCircuits = method(Options => simple)
arrangeCircuits Arrangement := List => o -> A -> answer(A, o.Prime, {}, "circuits A", unchanged)

arrangeNBC = method(Options => simple)
arrangeNBC Arrangement := List => o -> A -> answer(A, o.Prime, {}, "nbc A", unchanged)

arrangeAomoto = method(Options => simple)
arrangeAomoto (Arrangement, List) := List => o -> (A, w) -> (
    p := (prepare(A, o.Prime))#"prime";
    weights := apply(#w, i -> residue(w#i, p, "weight " | toString i));
    answer(A, o.Prime, {}, "aomoto A [" | spaced weights | "]", unchanged))

-- the expression of an element of an exterior algebra
expressionText = (f, p) -> (
    E := ring f;
    monomialText := e -> concatenate apply(#e, i -> if e#i == 0 then "" else "*e" | toString(i + 1));
    terms' := apply(listForm f, (e, c) -> toString residue(c, p, toString f) | monomialText e);
    if #terms' == 0 then "0" else demark(" + ", terms'))

exteriorOf = (A, E, P) -> (
    if coefficientRing E === P#"field" then return E;
    key := "arrange exterior";
    if not A.cache#?key then A.cache#key = new MutableHashTable;
    if not A.cache#key#?(E, P#"prime") then A.cache#key#(E, P#"prime") = (P#"field")(monoid E);
    A.cache#key#(E, P#"prime"))

isExterior = E -> isPolynomialRing E and #((options E).SkewCommutative) == numgens E

arrangeNormal = method(Options => simple)
arrangeNormal (Arrangement, RingElement) := RingElement => o -> (A, f) -> first arrangeNormal(A, {f}, o)
arrangeNormal (Arrangement, List) := List => o -> (A, L) -> (
    if #L == 0 then return {};
    E := ring first L;
    if any(L, f -> not instance(f, RingElement) or ring f =!= E) then error "arrange: expected elements of one exterior algebra";
    if not isExterior E or numgens E =!= #hyperplanes A then
    error("arrange: expected elements of an exterior algebra with ", toString(#hyperplanes A), " generators, one for each hyperplane");
    P := prepare(A, o.Prime);
    E' := exteriorOf(A, E, P);
    ask(merge(P, hashTable {"exterior" => E'}, last), {}, apply(L, f -> "normal A " | expressionText(f, P#"prime"))))

-- a question about D(A), or D(A, m)
ofDerivations = (word, o, A, m, make) -> answer(A, o.Prime, limitLines o, word | if m === null then "" else " " | multiplicitiesText m, make)

arrangeGB = method(Options => limited)
arrangeGB Arrangement := Matrix => o -> A -> ofDerivations("gb A", o, A, null, unchanged)
arrangeGB (Arrangement, List) := Matrix => o -> (A, m) -> ofDerivations("gb A", o, A, m, unchanged)

arrangeDer = method(Options => limited)
arrangeDer Arrangement := Matrix => o -> A -> ofDerivations("der A", o, A, null, unchanged)
arrangeDer (Arrangement, List) := Matrix => o -> (A, m) -> ofDerivations("der A", o, A, m, unchanged)

-- the maps of a resolution: the generators, and then one map after another
bettiOf = maps -> new BettiTally from flatten apply(#maps, k ->
    apply(pairs tally flatten degrees source maps#k, (d, n) -> (k, {d}, d) => n))

arrangeBetti = method(Options => limited)
arrangeBetti Arrangement := BettiTally => o -> A -> ofDerivations("resolve A", o, A, null, (a, P) -> bettiOf a)
arrangeBetti (Arrangement, List) := BettiTally => o -> (A, m) -> ofDerivations("resolve A", o, A, m, (a, P) -> bettiOf a)

-- the complex of free modules whose cokernel at 0 is D(A, m)
complexOf = maps -> (
    F := source first maps;
    if not instance(ChainComplex, Type) then return (value "complex") if #maps == 1 then F else drop(maps, 1);
    C := new ChainComplex;
    C.ring = ring F;
    C#0 = F;
    scan(drop(toList(0 .. #maps - 1), 1), k -> (C#k = source maps#k; C.dd#k = maps#k));
    C)

arrangeResolution = method(Options => limited)
arrangeResolution Arrangement := o -> A -> ofDerivations("resolve A", o, A, null, (a, P) -> complexOf a)
arrangeResolution (Arrangement, List) := o -> (A, m) -> ofDerivations("resolve A", o, A, m, (a, P) -> complexOf a)

arrangeFree = method(Options => limited)
arrangeFree Arrangement := Freeness => o -> A -> ofDerivations("free A", o, A, null, unchanged)
arrangeFree (Arrangement, List) := Freeness => o -> (A, m) -> ofDerivations("free A", o, A, m, unchanged)

------------------------------------------------------------------------------
-- WHAT MACAULAY2 SAYS
------------------------------------------------------------------------------
-- Saito's criterion at one point, by Macaulay2 alone
verifyFreeness = method(Options => simple)
verifyFreeness (Arrangement, Freeness) := Boolean => o -> (A, F) -> verifyFreeness(A, toList(#hyperplanes A : 1), F, o)
verifyFreeness (Arrangement, List, Freeness) := Boolean => o -> (A, m, F) -> (
    if not F#"isFree" then error "arrange: expected a basis";
    P := prepare(A, o.Prime);
    R := P#"ring";
    l := P#"dimension";
    forms := hyperplanes P#"reduction";
    G := F#"basis";
    if ring G =!= R or numRows G =!= l or numColumns G =!= l or #m =!= #forms then return false;
    values' := sub(G, matrix {F#"point"});
    isHomogeneous G and sum flatten degrees source G == sum m
    and all(#forms, i -> (
	    theta := (transpose jacobian matrix {{forms#i}}) * G;
	    all(flatten entries theta, f -> f % (forms#i)^(m#i) == 0)))
    and all(forms, h -> sub(h, matrix {F#"point"}) != 0)
    and transpose values' * F#"inverse" == id_((P#"field")^l))

-- Saito's criterion by a cofactor matrix: both products with that of the basis are the product of the forms
verifyCofactor = method(Options => simple)
verifyCofactor (Arrangement, Matrix, Matrix) := Boolean => o -> (A, G, N) -> verifyCofactor(A, toList(#hyperplanes A : 1), G, N, o)
verifyCofactor (Arrangement, List, Matrix, Matrix) := Boolean => o -> (A, m, G, N) -> (
    P := prepare(A, o.Prime);
    R := P#"ring";
    l := P#"dimension";
    forms := hyperplanes P#"reduction";
    if #m =!= #forms or any({G, N}, M -> ring M =!= R or numRows M =!= l or numColumns M =!= l) then return false;
    Q := product(#forms, i -> (forms#i)^(m#i)) * id_(R^l);
    isMember := (theta, i) -> all(flatten entries ((transpose jacobian matrix {{forms#i}}) * theta), f -> f % (forms#i)^(m#i) == 0);
    isHomogeneous G and sum flatten degrees source G == sum m and all(#forms, i -> isMember(G, i))
    and entries (G * N) == entries Q and entries (N * G) == entries Q)

-- generators of D(A, m) as vectors
derivationsHere = (A, m) -> (
    R := ring A;
    l := numgens R;
    forms := hyperplanes A;
    n := #forms;
    if n == 0 then return id_(R^l);
    C := transpose jacobian matrix {forms};
    M := gens ker map(R^n, , C | diagonalMatrix apply(n, i -> (forms#i)^(m#i)));
    M^(toList(0 .. l - 1)))

-- what vectors do to the forms, divided by the powers of the forms, as HyperplaneArrangements has them
valuesOn = (A, m, G, target') -> (
    forms := hyperplanes A;
    C := transpose jacobian matrix {forms};
    map(target', , apply(#forms, i -> apply(flatten entries (C^{i} * G), f -> f // (forms#i)^(m#i)))))

resolutionHere = M -> if instance(ChainComplex, Type) then res M else (value "freeResolution") M

setsOf = L -> sort apply(L, sort)

-- true, false, the limit, or why Macaulay2 has no value
compared = (theirs, mine) -> (
    if instance(theirs, ArrangeLimit) then theirs
    else try mine() == theirs else "no value from Macaulay2")

arrangeCheck = method(Options => limited)
arrangeCheck Arrangement := Comparison => o -> A -> arrangeCheck(A, toList(#hyperplanes A : 1), o)
arrangeCheck (Arrangement, List) := Comparison => o -> (A, m) -> (
    P := prepare(A, o.Prime);
    B := P#"reduction";
    R := ring B;
    n := #hyperplanes B;
    text := multiplicitiesText m;
    e := symbol e;
    E := (P#"field")(monoid [e_1..e_n, SkewCommutative => true]);
    products := flatten for i to n - 1 list for j from i + 1 to n - 1 list E_j * E_i;
    (theirForms, theirFlats, theirPoincare, theirCircuits, theirMaps, theirFree) := toSequence ask(P, limitLines o,
	{"hyperplanes A", "flats A", "poincare A", "circuits A", "resolve A " | text, "free A " | text});
    theirNormal := arrangeNormal(B, products);
    isLimit := a -> instance(a, ArrangeLimit);
    flatsByRank := if isLimit theirFlats then theirFlats else apply(byRank(B, theirFlats), L -> setsOf(L / toList));
    theirModule := if isLimit theirMaps then theirMaps else image first theirMaps;
    vectors := derivationsHere(B, m);
    rows := {
	"hyperplanes" => compared(theirForms, () -> hyperplanes B),
	"flats" => compared(flatsByRank, () -> apply(flats B, L -> setsOf(L / toList))),
	"poincare" => compared(if isLimit theirPoincare then theirPoincare else inDegreesRing(theirPoincare, P), () -> poincare B),
	"circuits" => compared(if isLimit theirCircuits then theirCircuits else setsOf theirCircuits, () -> setsOf circuits B),
	"normal" => compared(apply(products, f -> 0_E), () -> (
		I := orlikSolomon(B, E);
		apply(#products, k -> (products#k - theirNormal#k) % I))),
	"der" => compared(theirModule, () -> (
		V := der(B, m);
		if image valuesOn(B, m, first theirMaps, target V) == image V then image vectors else null)),
	"betti" => compared(if isLimit theirMaps then theirMaps else bettiOf theirMaps, () -> betti resolutionHere prune image vectors),
	"isFree" => compared(if isLimit theirFree then theirFree else theirFree#"isFree", () -> isFreeModule prune image vectors)
	};
    if not isLimit theirFree and theirFree#"isFree" then
    rows = append(rows, "certificate" => verifyFreeness(B, m, theirFree));
    if B =!= A and isPolynomialRing ring A then
    rows = append(rows, "flats over the given ring" => compared(flatsByRank, () -> apply(flats A, L -> setsOf(L / toList))));
    new Comparison from rows)

------------------------------------------------------------------------------
-- DOCUMENTATION
------------------------------------------------------------------------------
beginDocumentation()

doc ///
    Key
        Arrange
    Headline
        proved answers about hyperplane arrangements over prime fields
    Description
        Text
            The program {\tt arrange} answers questions about central hyperplane arrangements over the fields of 5, 7,
            13, 31, 101, 251 and 32003 elements, and what it answers is proved. This package gives it an arrangement of
            the package @TO HyperplaneArrangements@ and hands its answers back as the types of Macaulay2 and of that
            package. Hyperplanes are counted from 0, in the order of {\tt hyperplanes A}; no method of this package
            changes that order.
        Text
            The program is looked for on the PATH by the name {\tt arrange}. The environment variable {\tt ARRANGE}, or
            {\tt "program"} in the @TO2 {"Configuring", "configuration"}@ of this package, may hold another path.
        Text
            The forms have coefficients in ZZ/p. Where they are over QQ or ZZ, the option @TO Prime@ says which field the
            arrangement is taken over; @TO arrangeReduction@ is the arrangement over that field.
        CannedExample
            i1 : needsPackage "Arrange";
            i2 : R = ZZ/31[x,y,z];
            i3 : A = arrangement {x,y,z,x-y,x-z,y-z};
            i4 : arrangePoincare A
                           2      3
            o4 = 1 + 6T + 11T  + 6T
        Text
            Where a question goes past a limit of the program, what comes back is an @TO ArrangeLimit@. What the program
            refuses is an error with the line and the words of the refusal, and so is a program that is missing, was
            killed or whose answer is cut off. A form that is zero, repeated or not central, a number without a residue
            and a ring that is not known are errors before the program is asked.
    SeeAlso
        HyperplaneArrangements
        arrangeCheck
    Subnodes
        :Where the program is
        "Configuring"
        :What goes in
        Prime
        arrangeReduction
        :Combinatorics
        arrangeHyperplanes
        arrangePoint
        arrangeRank
        arrangeFlats
        arrangePoincare
        arrangeCharacteristic
        arrangeTriple
        arrangeCircuits
        arrangeNBC
        :The Orlik-Solomon algebra
        arrangeNormal
        arrangeAomoto
        :Logarithmic derivations
        arrangeGB
        arrangeDer
        arrangeResolution
        arrangeBetti
        arrangeFree
        Freeness
        :What Macaulay2 says
        verifyFreeness
        verifyCofactor
        arrangeCheck
        Comparison
        :Limits
        ArrangeLimit
///

doc ///
    Key
        "Configuring"
    Headline
        where the program is looked for
    Description
        Text
            The program is the one that the configuration of this package names; else the one that the environment variable
            {\tt ARRANGE} names; else {\tt arrange} on the PATH. It is proved, built and installed by {\tt ./arrange
            --install PREFIX} in its repository, which puts it into {\tt PREFIX/bin}.
        CannedExample
            i1 : loadPackage("Arrange", Configuration => {"program" => "/usr/local/bin/arrange"});
        Text
            The same may stand for good in the file {\tt init-Arrange.m2} of the application directory, which Macaulay2 makes
            at the first installation. A relative path is taken from the folder in which Macaulay2 runs. Each question starts the
            program once; nothing of a run is kept.
    SeeAlso
        Arrange
///

doc ///
    Key
        Prime
    Headline
        the field over which an arrangement over QQ or ZZ is taken
    Description
        Text
            An option of the methods of this package: 5, 7, 13, 31, 101, 251 or 32003. An arrangement over ZZ/p needs none.
            The arrangement modulo p may have other flats than that over QQ; @TO arrangeCheck@ says whether it has.
    SeeAlso
        arrangeReduction
///

doc ///
    Key
        arrangeReduction
        (arrangeReduction, Arrangement)
        [arrangeReduction, Prime]
    Headline
        the arrangement over ZZ/p
    Usage
        arrangeReduction(A, Prime => p)
    Inputs
        A : Arrangement
        Prime => ZZ
    Outputs
        : Arrangement
            with the forms of A modulo p, in the same order; the answers about derivations are over its ring
    Description
        Text
            Where A is over ZZ/p this is A itself. Asked again it is the same arrangement over the same ring.
///

doc ///
    Key
        arrangeHyperplanes
        (arrangeHyperplanes, Arrangement)
        [arrangeHyperplanes, Prime]
    Headline
        the forms, as the program has them
    Usage
        arrangeHyperplanes A
    Inputs
        A : Arrangement
        Prime => ZZ
    Outputs
        : List
            of the forms in the ring of @TO arrangeReduction@
///

doc ///
    Key
        arrangePoint
        (arrangePoint, Arrangement)
        [arrangePoint, Prime]
    Headline
        the least point off an arrangement
    Usage
        arrangePoint A
    Inputs
        A : Arrangement
        Prime => ZZ
    Outputs
        : List
            the coordinates, in ZZ/p, of the lexicographically least point that lies on no hyperplane
///

doc ///
    Key
        arrangeRank
        (arrangeRank, Arrangement)
        [arrangeRank, Prime]
    Headline
        the rank of an arrangement
    Usage
        arrangeRank A
    Inputs
        A : Arrangement
        Prime => ZZ
    Outputs
        : ZZ
            the codimension of the common points of all hyperplanes
///

doc ///
    Key
        arrangeFlats
        (arrangeFlats, Arrangement)
        [arrangeFlats, Prime]
    Headline
        the flats of an arrangement
    Usage
        arrangeFlats A
    Inputs
        A : Arrangement
        Prime => ZZ
    Outputs
        : List
            for each rank the list of the flats of that rank, each a @TO Flat@ of A, as {\tt flats A} has them;
            or an @TO ArrangeLimit@
///

doc ///
    Key
        arrangePoincare
        (arrangePoincare, Arrangement)
        [arrangePoincare, Prime]
    Headline
        the Poincaré polynomial of an arrangement
    Usage
        arrangePoincare A
    Inputs
        A : Arrangement
        Prime => ZZ
    Outputs
        : RingElement
            of the degrees ring, as {\tt poincare A} is; or an @TO ArrangeLimit@
///

doc ///
    Key
        arrangeCharacteristic
        (arrangeCharacteristic, Arrangement)
        [arrangeCharacteristic, Prime]
    Headline
        the characteristic polynomial of an arrangement
    Usage
        arrangeCharacteristic A
    Inputs
        A : Arrangement
        Prime => ZZ
    Outputs
        : RingElement
            of the degrees ring; its degree is the number of variables; or an @TO ArrangeLimit@
///

doc ///
    Key
        arrangeTriple
        (arrangeTriple, Arrangement, ZZ)
        [arrangeTriple, Prime]
    Headline
        Poincaré polynomials of an arrangement, a deletion and a restriction
    Usage
        arrangeTriple(A, i)
    Inputs
        A : Arrangement
        i : ZZ
            a hyperplane, counted from 0
        Prime => ZZ
    Outputs
        : List
            the Poincaré polynomials of A, of A without hyperplane i, and of A cut with it; or an @TO ArrangeLimit@
///

doc ///
    Key
        arrangeCircuits
        (arrangeCircuits, Arrangement)
        [arrangeCircuits, Prime]
    Headline
        the circuits of an arrangement
    Usage
        arrangeCircuits A
    Inputs
        A : Arrangement
        Prime => ZZ
    Outputs
        : List
            of the minimal dependent sets, each the list of its members; or an @TO ArrangeLimit@
///

doc ///
    Key
        arrangeNBC
        (arrangeNBC, Arrangement)
        [arrangeNBC, Prime]
    Headline
        the sets that contain no broken circuit
    Usage
        arrangeNBC A
    Inputs
        A : Arrangement
        Prime => ZZ
    Outputs
        : List
            of the sets that contain no circuit without its least member, each the list of its members;
            or an @TO ArrangeLimit@
///

doc ///
    Key
        arrangeNormal
        (arrangeNormal, Arrangement, RingElement)
        (arrangeNormal, Arrangement, List)
        [arrangeNormal, Prime]
    Headline
        normal forms in the Orlik-Solomon algebra
    Usage
        arrangeNormal(A, f)
    Inputs
        A : Arrangement
        f : RingElement
            of an exterior algebra with one generator for each hyperplane, in their order, or a list of such
        Prime => ZZ
    Outputs
        : RingElement
            that is congruent to f modulo the ideal of the Orlik-Solomon algebra, and none of whose terms contains a
            broken circuit; or the list of such
    Description
        Text
            The answer is in the ring of f where that is over ZZ/p, and else in a ring over ZZ/p with the same generators.
///

doc ///
    Key
        arrangeAomoto
        (arrangeAomoto, Arrangement, List)
        [arrangeAomoto, Prime]
    Headline
        the cohomology of the Orlik-Solomon algebra for some weights
    Usage
        arrangeAomoto(A, w)
    Inputs
        A : Arrangement
        w : List
            of weights, one for each hyperplane
        Prime => ZZ
    Outputs
        : List
            the dimensions, from degree 0 on, of the cohomology of the algebra under the left product with the sum of
            the products of weights and generators; or an @TO ArrangeLimit@
///

doc ///
    Key
        arrangeGB
        (arrangeGB, Arrangement)
        (arrangeGB, Arrangement, List)
        [arrangeGB, Prime]
        [arrangeGB, PairLimit]
        [arrangeGB, DegreeLimit]
    Headline
        the reduced Gröbner basis of the module of derivations
    Usage
        arrangeGB A
        arrangeGB(A, m)
    Inputs
        A : Arrangement
        m : List
            of multiplicities from 0 to 20, one for each hyperplane
        Prime => ZZ
        PairLimit => ZZ
            the limit of critical pairs
        DegreeLimit => ZZ
            the limit of degrees
    Outputs
        : Matrix
            whose columns are the members of the basis; or an @TO ArrangeLimit@
    Description
        Text
            Terms are compared by their monomials in grevlex, and for equal monomials the term of the smaller component
            is greater, whatever the order of the ring is.
    SeeAlso
        arrangeDer
///

doc ///
    Key
        arrangeDer
        (arrangeDer, Arrangement)
        (arrangeDer, Arrangement, List)
        [arrangeDer, Prime]
        [arrangeDer, PairLimit]
        [arrangeDer, DegreeLimit]
    Headline
        minimal generators of the module of derivations
    Usage
        arrangeDer A
        arrangeDer(A, m)
    Inputs
        A : Arrangement
        m : List
            of multiplicities from 0 to 20, one for each hyperplane
        Prime => ZZ
        PairLimit => ZZ
            the limit of critical pairs
        DegreeLimit => ZZ
            the limit of degrees
    Outputs
        : Matrix
            whose columns are the generators: row j holds what they do to variable j; or an @TO ArrangeLimit@
    Description
        Text
            The method @TO der@ of the package HyperplaneArrangements has a row for each hyperplane instead: what a
            derivation does to the form, divided by the power of the form; and it leaves derivations of degree 0 out.
///

doc ///
    Key
        arrangeBetti
        (arrangeBetti, Arrangement)
        (arrangeBetti, Arrangement, List)
        [arrangeBetti, Prime]
        [arrangeBetti, PairLimit]
        [arrangeBetti, DegreeLimit]
    Headline
        the Betti numbers of the module of derivations
    Usage
        arrangeBetti A
        arrangeBetti(A, m)
    Inputs
        A : Arrangement
        m : List
            of multiplicities from 0 to 20, one for each hyperplane
        Prime => ZZ
        PairLimit => ZZ
            the limit of critical pairs
        DegreeLimit => ZZ
            the limit of degrees
    Outputs
        : BettiTally
            or an @TO ArrangeLimit@
///

doc ///
    Key
        arrangeResolution
        (arrangeResolution, Arrangement)
        (arrangeResolution, Arrangement, List)
        [arrangeResolution, Prime]
        [arrangeResolution, PairLimit]
        [arrangeResolution, DegreeLimit]
    Headline
        a minimal free resolution of the module of derivations
    Usage
        arrangeResolution A
        arrangeResolution(A, m)
    Inputs
        A : Arrangement
        m : List
            of multiplicities from 0 to 20, one for each hyperplane
        Prime => ZZ
        PairLimit => ZZ
            the limit of critical pairs
        DegreeLimit => ZZ
            the limit of degrees
    Outputs
        : ChainComplex
            whose module at 0 has the columns of {\tt arrangeDer(A, m)} as its generators; or an @TO ArrangeLimit@
///

doc ///
    Key
        arrangeFree
        (arrangeFree, Arrangement)
        (arrangeFree, Arrangement, List)
        [arrangeFree, Prime]
        [arrangeFree, PairLimit]
        [arrangeFree, DegreeLimit]
    Headline
        whether an arrangement is free
    Usage
        arrangeFree A
        arrangeFree(A, m)
    Inputs
        A : Arrangement
        m : List
            of multiplicities from 0 to 20, one for each hyperplane
        Prime => ZZ
        PairLimit => ZZ
            the limit of critical pairs
        DegreeLimit => ZZ
            the limit of degrees
    Outputs
        : Freeness
            or an @TO ArrangeLimit@
///

doc ///
    Key
        Freeness
        (net, Freeness)
    Headline
        whether a module of derivations is free
    Description
        Text
            A hash table. {\tt F#"isFree"} says whether the module is free. Where it is, {\tt F#"basis"} is a matrix whose
            columns are a basis, {\tt F#"exponents"} its degrees, {\tt F#"point"} a point that lies on no hyperplane, and
            {\tt F#"inverse"} the inverse of the matrix whose rows are the values of the basis there: the certificate,
            which @TO verifyFreeness@ checks. Where it is not, {\tt F#"generators"} is how many generators it needs.
    SeeAlso
        arrangeFree
///

doc ///
    Key
        verifyFreeness
        (verifyFreeness, Arrangement, Freeness)
        (verifyFreeness, Arrangement, List, Freeness)
        [verifyFreeness, Prime]
    Headline
        checks the certificate of a free arrangement
    Usage
        verifyFreeness(A, F)
        verifyFreeness(A, m, F)
    Inputs
        A : Arrangement
        m : List
            of multiplicities
        F : Freeness
        Prime => ZZ
    Outputs
        : Boolean
            whether F holds a basis, by Macaulay2 alone
    Description
        Text
            The members are derivations, their degrees sum up to the multiplicities, the point lies on no hyperplane, and
            the inverse is that of their values there. So the determinant is not zero, and by the criterion of Saito they
            are a basis.
///

doc ///
    Key
        verifyCofactor
        (verifyCofactor, Arrangement, Matrix, Matrix)
        (verifyCofactor, Arrangement, List, Matrix, Matrix)
        [verifyCofactor, Prime]
    Headline
        checks a basis of derivations by its cofactor matrix
    Usage
        verifyCofactor(A, G, N)
        verifyCofactor(A, m, G, N)
    Inputs
        A : Arrangement
        m : List
            of multiplicities
        G : Matrix
            whose columns are the basis
        N : Matrix
        Prime => ZZ
    Outputs
        : Boolean
            whether both products of G and N are the identity times the product of the forms with their multiplicities, the
            columns of G are derivations, and their degrees sum up to the multiplicities: so they are a basis
    SeeAlso
        verifyFreeness
///

doc ///
    Key
        ArrangeLimit
        (net, ArrangeLimit)
        (toString, ArrangeLimit)
    Headline
        a limit that a question meets
    Description
        Text
            A hash table: {\tt L#"question"} is the word of the question, and {\tt L#"limit"} what there is too much of:
            {\tt flats}, {\tt circuits}, {\tt nbc}, {\tt aomoto}, {\tt pairs} or {\tt degree}.
///

doc ///
    Key
        Comparison
        (net, Comparison)
    Headline
        where the program and Macaulay2 agree
    Description
        Text
            A hash table: for each question {\tt true} or {\tt false}, or the @TO ArrangeLimit@ that the program met, or words
            where Macaulay2 has no value.
    SeeAlso
        arrangeCheck
///

doc ///
    Key
        arrangeCheck
        (arrangeCheck, Arrangement)
        (arrangeCheck, Arrangement, List)
        [arrangeCheck, Prime]
        [arrangeCheck, PairLimit]
        [arrangeCheck, DegreeLimit]
    Headline
        asks the program and Macaulay2, and says where they agree
    Usage
        arrangeCheck A
        arrangeCheck(A, m)
    Inputs
        A : Arrangement
        m : List
            of multiplicities from 0 to 20, one for each hyperplane
        Prime => ZZ
        PairLimit => ZZ
            the limit of critical pairs
        DegreeLimit => ZZ
            the limit of degrees
    Outputs
        : Comparison
    Description
        Text
            Compared are the forms, the flats, the Poincaré polynomial, the circuits, the normal forms of the products of
            two generators, the module of derivations, its Betti numbers, whether it is free, and the certificate where
            it is. Of an arrangement over QQ the flats over QQ are compared too.
///

------------------------------------------------------------------------------
-- TESTS
------------------------------------------------------------------------------
-- three lines through the origin
TEST ///
R = ZZ/31[x,y]
A = arrangement {x, y, x - y}
assert(arrangeHyperplanes A == {x, y, x - y})
assert(arrangePoint A == {1, 2})
assert(arrangeRank A === 2)
assert(apply(arrangeFlats A, L -> L / toList) === {{{}}, {{0}, {1}, {2}}, {{0, 1, 2}}})
assert(apply(arrangeFlats A, L -> set apply(L, toList)) === apply(flats A, L -> set apply(L, toList)))
assert all(flatten arrangeFlats A, F -> instance(F, Flat) and arrangement F === A)
assert(arrangePoincare A == poincare A)
T = (ring poincare A)_0
assert(arrangePoincare A == 1 + 3*T + 2*T^2)
assert(arrangeCharacteristic A == (T - 1)*(T - 2))
assert(arrangeTriple(A, 2) == {1 + 3*T + 2*T^2, (1 + T)^2, 1 + T})
assert(arrangeCircuits A === {{0, 1, 2}})
assert(arrangeNBC A === {{}, {0}, {1}, {2}, {0, 1}, {0, 2}})
assert(arrangeAomoto(A, {1, 1, 29}) === {0, 1, 1})
assert(arrangeAomoto(A, {1, 1, 1}) === {0, 0, 0})
assert(arrangeAomoto(A, {1/2, 1/2, -1}) === {0, 1, 1})
///

-- normal forms
TEST ///
R = ZZ/31[x,y]
A = arrangement {x, y, x - y}
E = ZZ/31[e_1..e_3, SkewCommutative => true]
assert(arrangeNormal(A, e_2*e_3) == -e_1*e_2 + e_1*e_3)
assert(arrangeNormal(A, e_3*e_2 + 2*e_1 - 5) == -5 + 2*e_1 + e_1*e_2 - e_1*e_3)
assert(arrangeNormal(A, e_1*e_2*e_3) == 0)
assert(arrangeNormal(A, 0_E) == 0)
assert(arrangeNormal(A, {e_1, e_2*e_3}) == {e_1, -e_1*e_2 + e_1*e_3})
-- over QQ the answer is over the field of the prime
F = QQ[f_1..f_3, SkewCommutative => true]
g = arrangeNormal(A, f_2*f_3/2)
assert(coefficientRing ring g === ZZ/31 and isSkewCommutative ring g)
assert(toString g == toString sub(sub((-f_1*f_2 + f_1*f_3)/2, ring g), ring g))
assert(ring arrangeNormal(A, f_1) === ring g)
///

-- derivations of three lines
TEST ///
R = ZZ/31[x,y]
A = arrangement {x, y, x - y}
M = arrangeDer A
assert(ring M === R and M == matrix {{x, 0}, {y, x*y - y^2}})
assert(degrees source M == {{1}, {2}} and degrees target M == {{0}, {0}})
assert(arrangeGB A == M)
assert(arrangeBetti A == betti res image M)
assert(arrangeBetti A === new BettiTally from {(0, {1}, 1) => 1, (0, {2}, 2) => 1})
F = arrangeFree A
assert(F#"isFree" and F#"exponents" == {1, 2} and F#"basis" == M)
assert(F#"point" == {1, 2})
assert(F#"inverse" == matrix(ZZ/31, {{1, 1}, {0, 15}}))
assert verifyFreeness(A, F)
assert not verifyFreeness(A, new Freeness from merge(F, hashTable {"point" => {1_(ZZ/31), 1_(ZZ/31)}}, last))
assert((arrangeFree(A, {2, 1, 1}))#"exponents" == {2, 2})
assert verifyFreeness(A, {2, 1, 1}, arrangeFree(A, {2, 1, 1}))
assert((arrangeFree(A, {0, 0, 0}))#"exponents" == {0, 0})
C = arrangeResolution A
assert(length C == 0 and C_0 == R^{-1, -2})
///

-- what is damaged is refused
TEST ///
R = ZZ/31[x,y]
A = arrangement {x, y, x - y}
F = arrangeFree A
with' = (key, value) -> new Freeness from merge(F, hashTable {key => value}, last)
assert verifyFreeness(A, with'("exponents", {1, 2}))
for i to 1 do for j to 1 do (
    E := map(R^2, R^2, {(i, j) => 1});
    assert not verifyFreeness(A, with'("inverse", F#"inverse" + sub(E, ZZ/31)));
    assert not verifyFreeness(A, with'("basis", map(R^2, R^{-1, -2}, F#"basis" + y^(j + 1) * E))))
assert not verifyFreeness(arrangement {x, y, x + y}, F)
assert not verifyFreeness(A, {2, 1, 1}, F)
G = map(R^2, R^{-1, -2}, {{x, 0}, {y, x*y - y^2}})
N = matrix {{x*y - y^2, 0}, {-y, x}}
assert verifyCofactor(A, G, N)
assert not verifyCofactor(A, {2, 1, 1}, G, N)
assert not verifyCofactor(arrangement {x, y, x + y}, G, N)
for i to 1 do for j to 1 do (
    E := map(R^2, R^2, {(i, j) => 1});
    assert not verifyCofactor(A, G, N + x*E);
    assert not verifyCofactor(A, map(R^2, R^{-1, -2}, G + y^(j + 1) * E), N))
-- members with a cofactor matrix that generate too little
assert not verifyCofactor(arrangement {x, y}, map(R^2, R^{-2, -2}, x*y*id_(R^2)), id_(R^2))
///

-- four general planes are not free
TEST ///
R = ZZ/32003[x,y,z]
A = arrangement {x, y, z, x + y + z}
F = arrangeFree A
assert(not F#"isFree" and F#"generators" === 4)
C = arrangeResolution A
assert(betti C == arrangeBetti A)
assert(betti C === new BettiTally from {(0, {1}, 1) => 1, (0, {2}, 2) => 3, (1, {3}, 3) => 1})
M = arrangeDer A
assert(M * C.dd_1 == 0 and image C.dd_1 == ker M)
K = arrangeCheck A
assert all(values K, v -> v === true)
assert not K#?"certificate"
///

-- Coxeter arrangements: their exponents, also over QQ with a prime
TEST ///
A = typeA 3
F = arrangeFree(A, Prime => 101)
assert(F#"exponents" == {0, 1, 2, 3})
assert verifyFreeness(A, F, Prime => 101)
assert(ring F#"basis" === ring arrangeReduction(A, Prime => 101))
assert(arrangeReduction(A, Prime => 101) === arrangeReduction(A, Prime => 101))
T = (ring arrangePoincare(A, Prime => 101))_0
assert(arrangePoincare(A, Prime => 101) == (1 + T)*(1 + 2*T)*(1 + 3*T))
assert(arrangeCharacteristic(A, Prime => 101) == T*(T - 1)*(T - 2)*(T - 3))
K = arrangeCheck(A, Prime => 101)
assert(all(values K, v -> v === true) and K#?"flats over the given ring" and K#?"certificate")
B = typeB(3, ZZ/31)
assert((arrangeFree B)#"exponents" == {1, 3, 5})
assert(set(apply((arrangeFlats B)#2, toList)) === set(apply(flats(2, B), toList)))
assert all(values arrangeCheck(B, {2, 2, 2, 2, 2, 2, 2, 2, 2}), v -> v === true)
///

-- the order of the forms is kept
TEST ///
R = ZZ/31[x,y,z]
L = {y - z, x, x + 2*y + 3*z, z, 5*x - y}
A = arrangement L
assert(arrangeHyperplanes A == L)
B = arrangement reverse L
assert(set arrangeCircuits B === set apply(arrangeCircuits A, C -> sort apply(C, i -> 4 - i)))
-- an order of monomials does not change the forms
S = ZZ/31[x,y,z, MonomialOrder => {Weights => {1, 5, 3}, Lex}]
assert(arrangeHyperplanes sub(A, map(S, R, gens S)) == L / map(S, R, gens S))
///

-- no hyperplanes, one variable, a quotient ring
TEST ///
R = ZZ/7[x,y]
A = arrangement({}, R)
assert(arrangeRank A === 0 and arrangeHyperplanes A === {})
assert(apply(arrangeFlats A, L -> L / toList) === {{{}}})
assert(arrangePoincare A == 1)
assert(arrangeCircuits A === {} and arrangeNBC A === {{}})
F = arrangeFree A
assert(F#"isFree" and F#"exponents" == {0, 0} and F#"point" == {0, 0})
assert verifyFreeness(A, F)
S = ZZ/7[t]
assert((arrangeFree arrangement {t})#"exponents" == {1})
Q = restriction(arrangement({x, y, x - 2*y}, R), {0})
assert(arrangeRank trim Q === 1)
///

-- ten variables, and sixty-four hyperplanes
TEST ///
R = ZZ/101[x_1..x_10]
A = arrangement gens R
assert(arrangeDer A == diagonalMatrix gens R)
assert verifyFreeness(A, arrangeFree A)
S = ZZ/101[s,t]
B = arrangement for k from 0 to 63 list s + k*t
assert(toList first last arrangeFlats B === toList(0..63))
assert(arrangePoint B == {1, 0})
///

-- limits are values
TEST ///
R = ZZ/31[x,y]
A = arrangement {x, y, x - y}
L = arrangeFree(A, PairLimit => 0)
assert(instance(L, ArrangeLimit) and L#"limit" === "pairs" and L#"question" === "free")
assert((arrangeGB(A, DegreeLimit => 1))#"limit" === "degree")
assert(arrangeDer(A, PairLimit => 1) == arrangeDer A)
K = arrangeCheck(A, PairLimit => 0)
assert(instance(K#"der", ArrangeLimit) and K#"poincare" === true)
S = ZZ/32003[u_1..u_8]
V = arrangement for t from 1 to 30 list sum(8, j -> t^j*u_(j+1))
assert((arrangeFlats V)#"limit" === "flats")
assert((arrangePoincare V)#"limit" === "flats")
assert((arrangeCircuits V)#"limit" === "circuits")
assert((arrangeNBC V)#"limit" === "nbc")
assert((arrangeAomoto(V, toList(30 : 0)))#"limit" === "aomoto")
///

-- what is said before the program is asked, and what it refuses
TEST ///
fails = f -> try (f(); false) else true
R = ZZ/31[x,y]
assert fails(() -> arrangeRank arrangement {x, y, 2*x})
assert fails(() -> arrangeRank arrangement {x, 0_R})
assert fails(() -> arrangeRank arrangement {x, y + 1})
assert fails(() -> arrangeRank typeA 2)
assert fails(() -> arrangeRank(typeA 2, Prime => 11))
assert fails(() -> arrangeRank typeA(2, ZZ/11))
assert fails(() -> arrangeRank(typeA(2, ZZ/31), Prime => 101))
assert fails(() -> arrangeRank typeA(2, GF 25))
S = QQ[s,t]
assert fails(() -> arrangeRank(arrangement {s + t/31}, Prime => 31))
assert fails(() -> arrangeRank(arrangement {s + t, s + 32*t}, Prime => 31))
assert(arrangeRank(arrangement {s + t, s + 32*t}, Prime => 101) === 2)
A = arrangement {x, y, x - y}
assert fails(() -> arrangeDer(A, {1, 1}))
assert fails(() -> arrangeDer(A, {1, 1, 21}))
assert fails(() -> arrangeAomoto(A, {1, 1}))
assert fails(() -> arrangeTriple(A, 3))
assert fails(() -> arrangeRank typeA(10, ZZ/101))
assert fails(() -> arrangeRank typeD(4, ZZ/7))
///

end--
