-- What the letters of each language sort as. web/languages.py makes this file from the front end's sources: change it there.

local tables = { CASES = {} }

-- Small letters, and what each of them sorts as in any language that has no rule of its own; a `*` is a byte after each letter of ASCII.
tables.ROOT = {
    { "àáâãäåāăąǎǟǡǻȁȃȧḁạảấầẩẫậắằẳẵặẚ", "a" },
    { "ⱥ", "a*" },
    { "æǣǽ", "ae" },
    { "ḃḅḇ", "b" },
    { "ƀƃɓ", "b*" },
    { "çćĉċčḉ", "c" },
    { "ƈȼ", "c*" },
    { "ðďđḋḍḏḑḓ", "d" },
    { "ƌȡẟɖɗ", "d*" },
    { "ȸ", "db" },
    { "ǆǳǅǲ", "dz" },
    { "èéêëēĕėęěȅȇȩḕḗḙḛḝẹẻẽếềểễệ", "e" },
    { "ǝɇəɛ", "e*" },
    { "ḟ", "f" },
    { "ƒ", "f*" },
    { "ĝğġģǧǵḡ", "g" },
    { "ƣǥɠɣ", "g*" },
    { "ĥħȟḣḥḧḩḫẖ", "h" },
    { "ƕ", "h*" },
    { "ìíîïĩīĭįǐȉȋḭḯỉị", "i" },
    { "ıɨɩ", "i*" },
    { "ĳ", "ij" },
    { "ĵǰ", "j" },
    { "ȷɉ", "j*" },
    { "ķǩḱḳḵ", "k" },
    { "ƙ", "k*" },
    { "ĺļľŀłḷḹḻḽ", "l" },
    { "ƚƛȴ", "l*" },
    { "ǉǈ", "lj" },
    { "ỻ", "ll" },
    { "ḿṁṃ", "m" },
    { "ɯ", "m*" },
    { "ñńņňŉǹṅṇṉṋ", "n" },
    { "ŋƞȵɲ", "n*" },
    { "ǌǋ", "nj" },
    { "òóôõöøōŏőơǒǫǭǿȍȏȫȭȯȱṍṏṑṓọỏốồổỗộớờởỡợ", "o" },
    { "ȣɔɵ", "o*" },
    { "œ", "oe" },
    { "ṕṗ", "p" },
    { "ƥ", "p*" },
    { "ĸɋ", "q*" },
    { "ȹ", "qp" },
    { "ŕŗřȑȓṙṛṝṟ", "r" },
    { "ɍʀ", "r*" },
    { "śŝşšſșṡṣṥṧṩẛ", "s" },
    { "ƪȿẜẝʃ", "s*" },
    { "ß", "ss" },
    { "ţťțṫṭṯṱẗ", "t" },
    { "ŧƫƭȶʈⱦ", "t*" },
    { "ùúûüũūŭůűųưǔǖǘǚǜȕȗṳṵṷṹṻụủứừửữự", "u" },
    { "ʉʊ", "u*" },
    { "ṽṿ", "v" },
    { "ỽʋʌ", "v*" },
    { "ŵẁẃẅẇẉẘ", "w" },
    { "ẋẍ", "x" },
    { "ýÿŷȳẏẙỳỵỷỹ", "y" },
    { "ƴȝɏỿ", "y*" },
    { "źżžẑẓẕ", "z" },
    { "þƅƨƶƹƺƻƽƿǯȥɀɂʒ", "z*" },
    { "ƾ", "ts" },
    { "ƍ", "zw" },
}

-- The languages, each with its own rules.
tables.LANGUAGES = {
    ["plain"] = {  },
    ["de"] = {  },
    ["en"] = {  },
    ["fr"] = {  },
    ["it"] = {  },
    ["nl"] = {  },
    ["pt"] = {  },
    ["de-phonebook"] = { { "ä", "ae" }, { "ö", "oe" }, { "ü", "ue" } },
    ["es"] = { { "ñ", "n*" } },
    ["pl"] = { { "ą", "a*" }, { "ć", "c*" }, { "ę", "e*" }, { "ł", "l*" }, { "ń", "n*" }, { "ó", "o*" }, { "ś", "s*" }, { "ź", "z*" }, { "ż", "z**" } },
    ["cs"] = { { "č", "c*" }, { "ch", "h*" }, { "ř", "r*" }, { "š", "s*" }, { "ž", "z*" } },
    ["sk"] = { { "ä", "a*" }, { "č", "c*" }, { "ch", "h*" }, { "ô", "o*" }, { "ř", "r*" }, { "š", "s*" }, { "ž", "z*" } },
    ["hu"] = { { "cs", "c*" }, { "dz", "d*" }, { "dzs", "d**" }, { "gy", "g*" }, { "ly", "l*" }, { "ny", "n*" }, { "öőȫ", "o*" }, { "sz", "s*" }, { "ty", "t*" }, { "üűǖǘǚǜ", "u*" }, { "zs", "z*" }, { "ccs", "c*s" }, { "ddz", "d*z" }, { "ddzs", "d**zs" }, { "ggy", "g*y" }, { "lly", "l*y" }, { "nny", "n*y" }, { "ssz", "s*z" }, { "tty", "t*y" }, { "zzs", "z*s" } },
    ["sv"] = { { "å", "*a" }, { "äæęǟǣǽ", "*b" }, { "öøőœôȫǿ", "*c" }, { "üűǖǘǚǜ", "y" }, { "þ", "th" } },
    ["da"] = { { "æäęǟǣǽ", "*a" }, { "øöőœȫǿ", "*b" }, { "åǻ", "*ca" }, { "aa", "*c" }, { "üűǖǘǚǜ", "y" }, { "þ", "th" } },
    ["nb"] = { { "æäęǟǣǽ", "*a" }, { "øöőœȫǿ", "*b" }, { "åǻ", "*ca" }, { "aa", "*c" }, { "üűǖǘǚǜ", "y" }, { "þ", "th" } },
    ["fi"] = { { "åǻ", "*a" }, { "äæǟǣǽ", "*b" }, { "öøȫǿ", "*c" }, { "üǖǘǚǜ", "y" } },
    ["tr"] = { { "ç", "c*" }, { "ğ", "g*" }, { "ı", "h*" }, { "ö", "o*" }, { "ş", "s*" }, { "ü", "u*" } },
    ["hr"] = { { "č", "c*" }, { "ć", "c**" }, { "dž", "d*" }, { "ǆ", "d*z*" }, { "đ", "d**" }, { "lj", "l*" }, { "ǉ", "l*j" }, { "nj", "n*" }, { "ǌ", "n*j" }, { "š", "s*" }, { "ž", "z*" } },
}

-- Fields whose values stay as they are.
tables.FIXED = { ["crossref"] = true, ["doi"] = true, ["file"] = true, ["month"] = true, ["number"] = true, ["pages"] = true, ["url"] = true, ["volume"] = true, ["xref"] = true, ["year"] = true }

-- How many times as long the strings are that variables of a run with coded letters keep.
tables.LONGER = 4

-- Why the letters of a language are left out.
tables.REASONS = { ["NotUtf8"] = "an entry or a string isn't UTF-8", ["ControlCharacters"] = "the style, an entry or a string has control characters", ["PrintsKeys"] = "the style prints text that it made for sorting", ["CutsLetters"] = "the style cuts text by bytes", ["Unfinished"] = "the run didn't finish" }

-- How often databases are looked through for parents, and how far the beginning of an item is read for its key.
tables.OF_VALUES = { ["MOST_ROUNDS"] = 8, ["LONGEST_HEAD"] = 200 }

-- How far a style is followed.
tables.OF_STYLES = { ["MOST_STEPS"] = 200000, ["MOST_NAMES"] = 5000, ["MOST_ROUNDS"] = 10, ["MOST_TEXTS"] = 128, ["DEEPEST"] = 200 }

-- The built-in functions, each with what it does to letters and how many literals it pops for that.
tables.BUILTINS = {
    { "=", "Answer", 2 },
    { "<", "Answer", 2 },
    { ">", "Answer", 2 },
    { "+", "Answer", 2 },
    { "-", "Answer", 2 },
    { "*", "Concatenate", 0 },
    { ":=", "Assign", 0 },
    { "add.period$", "Keep", 0 },
    { "call.type$", "CallType", 0 },
    { "change.case$", "Keep", 1 },
    { "chr.to.int$", "Answer", 1 },
    { "cite$", "Answer", 0 },
    { "duplicate$", "Duplicate", 0 },
    { "empty$", "Answer", 1 },
    { "format.name$", "Keep", 2 },
    { "if$", "If", 0 },
    { "int.to.chr$", "Answer", 1 },
    { "int.to.str$", "Answer", 1 },
    { "missing$", "Answer", 1 },
    { "newline$", "Take", 0 },
    { "num.names$", "Answer", 1 },
    { "pop$", "Take", 1 },
    { "preamble$", "Preamble", 0 },
    { "purify$", "Purify", 0 },
    { "quote$", "Answer", 0 },
    { "skip$", "Take", 0 },
    { "stack$", "Clear", 0 },
    { "substring$", "Substring", 0 },
    { "swap$", "Swap", 0 },
    { "text.length$", "Answer", 1 },
    { "text.prefix$", "Keep", 1 },
    { "top$", "Take", 1 },
    { "type$", "Answer", 0 },
    { "warning$", "Take", 1 },
    { "while$", "While", 0 },
    { "width$", "Answer", 1 },
    { "write$", "Write", 0 },
}

-- The names of the languages.
tables.NAMES = { "plain", "de", "en", "fr", "it", "nl", "pt", "de-phonebook", "es", "pl", "cs", "sk", "hu", "sv", "da", "nb", "fi", "tr", "hr" }

-- Capitals whose small letters sort as something, each before its small letter.
local PAIRS = "ÀàÁáÂâÃãÄäÅåÆæÇçÈèÉéÊêËëÌìÍíÎîÏïÐðÑñÒòÓóÔôÕõÖöØøÙùÚúÛûÜüÝýÞþĀāĂăĄąĆćĈĉĊċČčĎďĐđĒēĔĕĖėĘęĚěĜĝĞğĠġĢģĤĥĦħĨĩĪīĬĭĮįĲĳĴĵĶķĹĺĻļĽľĿŀŁłŃńŅņŇňŊŋŌōŎŏŐőŒœŔŕŖŗŘřŚśŜŝŞşŠšŢţŤťŦŧŨũŪūŬŭŮůŰűŲųŴŵŶŷŸÿŹźŻżŽžƁɓƂƃƄƅƆɔƇƈƉɖƊɗƋƌƎǝƏəƐɛƑƒƓɠƔɣƖɩƗɨƘƙƜɯƝɲƟɵƠơƢƣƤƥƦʀƧƨƩʃƬƭƮʈƯưƱʊƲʋƳƴƵƶƷʒƸƹƼƽǄǆǇǉǊǌǍǎǏǐǑǒǓǔǕǖǗǘǙǚǛǜǞǟǠǡǢǣǤǥǦǧǨǩǪǫǬǭǮǯǱǳǴǵǶƕǷƿǸǹǺǻǼǽǾǿȀȁȂȃȄȅȆȇȈȉȊȋȌȍȎȏȐȑȒȓȔȕȖȗȘșȚțȜȝȞȟȠƞȢȣȤȥȦȧȨȩȪȫȬȭȮȯȰȱȲȳȺⱥȻȼȽƚȾⱦɁɂɃƀɄʉɅʌɆɇɈɉɊɋɌɍɎɏḀḁḂḃḄḅḆḇḈḉḊḋḌḍḎḏḐḑḒḓḔḕḖḗḘḙḚḛḜḝḞḟḠḡḢḣḤḥḦḧḨḩḪḫḬḭḮḯḰḱḲḳḴḵḶḷḸḹḺḻḼḽḾḿṀṁṂṃṄṅṆṇṈṉṊṋṌṍṎṏṐṑṒṓṔṕṖṗṘṙṚṛṜṝṞṟṠṡṢṣṤṥṦṧṨṩṪṫṬṭṮṯṰṱṲṳṴṵṶṷṸṹṺṻṼṽṾṿẀẁẂẃẄẅẆẇẈẉẊẋẌẍẎẏẐẑẒẓẔẕẠạẢảẤấẦầẨẩẪẫẬậẮắẰằẲẳẴẵẶặẸẹẺẻẼẽẾếỀềỂểỄễỆệỈỉỊịỌọỎỏỐốỒồỔổỖỗỘộỚớỜờỞởỠỡỢợỤụỦủỨứỪừỬửỮữỰựỲỳỴỵỶỷỸỹỺỻỼỽỾỿⱾȿⱿɀꟜƛ"

-- Letters that aren't of such a pair: itself, the small letter, it in the other case, and whether it is a capital.
local OTHERS = {
    { "ß", "ß", "SS", false },
    { "ı", "ı", "I", false },
    { "ĸ", "ĸ", "ĸ", false },
    { "ŉ", "ŉ", "ʼN", false },
    { "ſ", "ſ", "S", false },
    { "ƍ", "ƍ", "ƍ", false },
    { "ƪ", "ƪ", "ƪ", false },
    { "ƫ", "ƫ", "ƫ", false },
    { "ƺ", "ƺ", "ƺ", false },
    { "ƻ", "ƻ", "ƻ", false },
    { "ƾ", "ƾ", "ƾ", false },
    { "ǅ", "ǆ", "ǆ", true },
    { "ǈ", "ǉ", "ǉ", true },
    { "ǋ", "ǌ", "ǌ", true },
    { "ǰ", "ǰ", "J̌", false },
    { "ǲ", "ǳ", "ǳ", true },
    { "ȡ", "ȡ", "ȡ", false },
    { "ȴ", "ȴ", "ȴ", false },
    { "ȵ", "ȵ", "ȵ", false },
    { "ȶ", "ȶ", "ȶ", false },
    { "ȷ", "ȷ", "ȷ", false },
    { "ȸ", "ȸ", "ȸ", false },
    { "ȹ", "ȹ", "ȹ", false },
    { "ẖ", "ẖ", "H̱", false },
    { "ẗ", "ẗ", "T̈", false },
    { "ẘ", "ẘ", "W̊", false },
    { "ẙ", "ẙ", "Y̊", false },
    { "ẚ", "ẚ", "Aʾ", false },
    { "ẛ", "ẛ", "Ṡ", false },
    { "ẜ", "ẜ", "ẜ", false },
    { "ẝ", "ẝ", "ẝ", false },
    { "ẞ", "ß", "ß", true },
    { "ẟ", "ẟ", "ẟ", false },
    { "Å", "å", "å", true },
}

for capital, small in PAIRS:gmatch("([^\128-\191][\128-\191]*)([^\128-\191][\128-\191]*)") do
    tables.CASES[capital] = { small = small, other = small, is_capital = true }
    tables.CASES[small] = { small = small, other = capital, is_capital = false }
end
for _, row in ipairs(OTHERS) do
    tables.CASES[row[1]] = { small = row[2], other = row[3], is_capital = row[4] }
end

return tables
