/* The token kinds: AURA_KINDS(X) is X(number, name, spelling) for each kind from 0 to 125, in the order of TokenKind in the
 * original's token.rs. The spelling is empty for the kinds that carry a text, for those that are never made, and for EOF. */
#ifndef AURA_KINDS_H
#define AURA_KINDS_H

#include <stddef.h>
#include <stdint.h>

#define AURA_KINDS(X) \
    X(0, IntLiteral, "") \
    X(1, FloatLiteral, "") \
    X(2, StringLiteral, "") \
    X(3, CharLiteral, "") \
    X(4, BoolLiteral, "") \
    X(5, Ident, "") \
    X(6, Val, "val") \
    X(7, Var, "var") \
    X(8, Fun, "fun") \
    X(9, Struct, "struct") \
    X(10, Class, "class") \
    X(11, Interface, "interface") \
    X(12, Enum, "enum") \
    X(13, Actor, "actor") \
    X(14, Sealed, "sealed") \
    X(15, Return, "return") \
    X(16, If, "if") \
    X(17, Else, "else") \
    X(18, When, "when") \
    X(19, For, "for") \
    X(20, In, "in") \
    X(21, While, "while") \
    X(22, Do, "do") \
    X(23, Break, "break") \
    X(24, Continue, "continue") \
    X(25, Try, "try") \
    X(26, Catch, "catch") \
    X(27, Finally, "finally") \
    X(28, Throw, "throw") \
    X(29, Is, "is") \
    X(30, As, "as") \
    X(31, Public, "public") \
    X(32, Private, "private") \
    X(33, Protected, "protected") \
    X(34, Internal, "internal") \
    X(35, Null, "null") \
    X(36, This, "this") \
    X(37, Super, "super") \
    X(38, Object, "object") \
    X(39, Unit, "") \
    X(40, Typealias, "typealias") \
    X(41, Override, "override") \
    X(42, Suspend, "suspend") \
    X(43, Inline, "inline") \
    X(44, Const, "const") \
    X(45, Comptime, "comptime") \
    X(46, Defer, "defer") \
    X(47, Extern, "extern") \
    X(48, Import, "import") \
    X(49, Package, "package") \
    X(50, Lazy, "lazy") \
    X(51, Lateinit, "lateinit") \
    X(52, Data, "data") \
    X(53, Value, "value") \
    X(54, To, "to") \
    X(55, Await, "await") \
    X(56, Async, "async") \
    X(57, Select, "select") \
    X(58, Channel, "") \
    X(59, Spawn, "") \
    X(60, Send, "") \
    X(61, Ask, "") \
    X(62, Box, "box") \
    X(63, Weak, "weak") \
    X(64, Malloc, "") \
    X(65, Free, "") \
    X(66, Retain, "") \
    X(67, Release, "") \
    X(68, Native, "native") \
    X(69, Plus, "+") \
    X(70, Minus, "-") \
    X(71, Star, "*") \
    X(72, Slash, "/") \
    X(73, Percent, "%") \
    X(74, DoublePlus, "++") \
    X(75, DoubleMinus, "--") \
    X(76, Assign, "=") \
    X(77, PlusEq, "+=") \
    X(78, MinusEq, "-=") \
    X(79, StarEq, "*=") \
    X(80, SlashEq, "/=") \
    X(81, PercentEq, "%=") \
    X(82, EqEq, "==") \
    X(83, Neq, "!=") \
    X(84, Lt, "<") \
    X(85, Gt, ">") \
    X(86, LtEq, "<=") \
    X(87, GtEq, ">=") \
    X(88, AndAnd, "&&") \
    X(89, OrOr, "||") \
    X(90, Bang, "!") \
    X(91, Ampersand, "&") \
    X(92, Pipe, "|") \
    X(93, Caret, "^") \
    X(94, LtLt, "<<") \
    X(95, GtGt, ">>") \
    X(96, GtGtGt, ">>>") \
    X(97, DoubleBang, "!!") \
    X(98, Arrow, "->") \
    X(99, DoubleArrow, "=>") \
    X(100, DoubleDot, "") \
    X(101, TripleDot, "") \
    X(102, At, "@") \
    X(103, Hash, "#") \
    X(104, DoubleColon, "::") \
    X(105, LParen, "(") \
    X(106, RParen, ")") \
    X(107, LBrace, "{") \
    X(108, RBrace, "}") \
    X(109, LBracket, "[") \
    X(110, RBracket, "]") \
    X(111, Comma, ",") \
    X(112, Semicolon, ";") \
    X(113, Colon, ":") \
    X(114, DoubleColonT, "::=") \
    X(115, Dot, ".") \
    X(116, DoubleDotOp, "..") \
    X(117, TripleDotOp, "...") \
    X(118, QuestionMark, "?") \
    X(119, DoubleQMark, "??") \
    X(120, StringPart, "") \
    X(121, StringInterpStart, "") \
    X(122, StringInterpEnd, "") \
    X(123, DocComment, "") \
    X(124, EOF, "") \
    X(125, Error, "")

/* AURA_KIND_IntLiteral is 0, .. , AURA_KIND_Error is 125, and AURA_KIND_COUNT is 126. */
#define AURA_ROW(number, name, spelling) AURA_KIND_##name = number,
enum { AURA_KINDS(AURA_ROW) AURA_KIND_COUNT };
#undef AURA_ROW

/* The name of a kind, as "IntLiteral"; NULL over 125. */
#define AURA_ROW(number, name, spelling) case number: return #name;
static inline const char *aura_kind_name(uint64_t kind) {
    switch (kind) {
    AURA_KINDS(AURA_ROW)
    default: return NULL;
    }
}
#undef AURA_ROW

/* The fixed spelling of a kind; NULL over 125. */
#define AURA_ROW(number, name, spelling) case number: return spelling;
static inline const char *aura_kind_spelling(uint64_t kind) {
    switch (kind) {
    AURA_KINDS(AURA_ROW)
    default: return NULL;
    }
}
#undef AURA_ROW

#endif
