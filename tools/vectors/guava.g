# Cyclic codes by GAP and its package GUAVA: generators, dimensions, minimum distances, codewords, and words decoded by the
# nearest codeword. tools/vectors/make runs it. A word is the list of its places, 0 first, and is written as a number in
# hexadecimal, place i the bit of weight 2^i.
#
#     cyclic n k d : representatives    d is 0 where GUAVA was not asked for it
#     generator word
#     codeword word
#     nearest received codeword         by GUAVA's table of syndromes: no codeword is nearer
LoadPackage("guava");
SizeScreen([4000, 30]);
Print("version GAP ", GAPInfo.Version, " GUAVA ", InstalledPackageVersion("guava"), "\n");
# the document's polynomial of each degree
masks := [0, 7, 11, 19, 37, 67, 131, 285, 529, 1033, 2053, 4179];
x := Indeterminate(GF(2), "x");
state := 20261115;
below := function(last)
  state := (state * 6364136223846793005 + 1442695040888963407) mod 2^64;
  return QuoInt(state, 2^33) mod last;
end;
hex := function(places)
  return LowercaseString(HexStringInt(Sum([1 .. Length(places)], i -> IntFFE(places[i]) * 2^(i-1))));
end;
places := c -> VectorCodeword(c);
# a codeword of C; the message 0 is left out, as GUAVA 3.17 does not come back from it
drawn := function(C)
  local message;
  message := List([1 .. Dimension(C)], j -> below(2) * Z(2)^0);
  if IsZero(message) then message[1] := Z(2)^0; fi;
  return places(Codeword(message * C));
end;
# The code whose defining set is the cosets of `members`. Minimum distance and decoding are asked for where GUAVA has them in
# seconds.
cyclic := function(n, members, distance, nearest)
  local s, representatives, mask, omega, alpha, g, r, C, plain, word, c, i, weight, hit, place;
  s := OrderMod(2, n);
  representatives := Set(List(members, m -> Minimum(List([0 .. s - 1], j -> m * 2^j mod n))));
  mask := Sum([0 .. s], i -> (QuoInt(masks[s], 2^i) mod 2) * x^i);
  omega := RootsOfUPol(GF(2^s), mask)[1];
  alpha := omega^((2^s - 1) / n);
  g := x^0;
  for r in representatives do g := g * MinimalPolynomial(GF(2), alpha^r, 1); od;
  C := GeneratorPolCode(g, n, GF(2));
  # a code given by a matrix is decoded by coset leaders; one given by a polynomial by trapped errors, which finds fewer
  plain := GeneratorMatCode(GeneratorMat(C), GF(2));
  Print("cyclic ", n, " ", Dimension(C), " ");
  if distance then Print(MinimumDistance(C)); else Print(0); fi;
  Print(" : ");
  for r in representatives do Print(r, " "); od;
  Print("\ngenerator ", hex(CoefficientsOfUnivariatePolynomial(g)), "\n");
  for i in [1 .. 3] do
    Print("codeword ", hex(drawn(C)), "\n");
  od;
  for i in [1 .. nearest] do
    word := ShallowCopy(drawn(C));
    weight := i mod 6;
    hit := [];
    while Length(hit) < weight do
      place := 1 + below(n);
      if not place in hit then Add(hit, place); word[place] := word[place] + Z(2)^0; fi;
    od;
    c := Decodeword(plain, Codeword(word, GF(2)));
    Print("nearest ", hex(word), " ", hex(places(c)), "\n");
  od;
end;

# documents 01 and 003, and Golay's code
cyclic(7, [1], true, 12);
cyclic(7, [0, 1], true, 12);
cyclic(15, [1, 3], true, 24);
cyclic(15, [1, 3, 5], true, 24);
cyclic(23, [1], true, 24);
cyclic(31, [1, 3], true, 24);
cyclic(31, [1, 5], true, 24);
# document 001: its first example, the code of length 45, Tables II to IV, and f = x^4 + x + 1
cyclic(17, [1], true, 24);
cyclic(17, [3, 5, 11], true, 24);
cyclic(45, [-5, -3, 3, 5], true, 24);
cyclic(65, [1], false, 12);
cyclic(65, [1, 5], false, 0);
cyclic(65, [1, 5, 7], false, 0);
cyclic(65, [3, 5, 11, 13], false, 0);
cyclic(127, [-3, 0, 1, 7], false, 0);
cyclic(127, [-3, 0, 1, 7, 9], false, 0);
cyclic(127, [-3, 0, 1, 7, 9, 11], false, 0);
cyclic(73, [-3, 1, 3, 9], false, 0);
# document 002: (21, 7, 8); (65, 41, 8) is above
cyclic(21, [1, 3, 7, 9], true, 24);
QUIT;
