package beside

import (
	"math/rand"
	"strings"
)

// Names are made of atoms: those that mean the same in each name, those of one kind of name, and those that some reader takes otherwise.
var (
	letters = []string{"a", "b", "m", "x", "Z", "_", "7", "-", ".", ":", "/", "é", "日", "🚀", "\U0010ffff"}
	marks   = []string{
		"#", "!", "~", "'", "`", "%", "$", "*", "+", "?", ";", "&", "|", "(", ")", "[", "]", "{", "}", "<", ">", "@", "^",
		"\x01", "\x02", "\x0b", "\x1b", "\x7f", "\u0085", "\u00a0", "\u2028", "\ufeff", "\ufffd", `\a`, `\n`, `\0`, `\,`, `\ `,
	}
	ofMeasurement = []string{"=", `"`, `\,`}
	ofTag         = []string{`\=`, `"`}
	ofFieldKey    = []string{`\=`, "\\\u00e9", `\'`}
	ofString      = []string{",", " ", "=", `\"`, `\\`, "a b,c=d", " 5", "#", "\t"}
	hostileAtoms  = []string{
		`\\`, `\"`, `"`, ",", "=", " ", "\t", "\x00", "\r", "\n", `\`, `\=`, "\\\t", "\\\n", "\\\x00", "\\\r", "#!~", "#!~#", "==", `\==`, "\xff",
	}
	// Names that are near to those that mean something to a server, or are such.
	nearNames = []string{
		"times", "Time", "_serie", "_measurement", "_tag", "__name", "_name_", "__graphite__", "db", "value", "le", "job", "select", "from",
		"inf", "nan", "true", "f", "i", "1", "-1", "0x1", `C:\temp`, "#!", "!~#", "a==b", `\=`, `\=\=`, "=",
	}
	takenNames = []string{
		"time", "_name", "_series", "_fieldKeys", "_tagKeys", "_measurements", "_tagKey", "_tags", "_tagValue", "_fieldKey", "_seriesKey", "__name__",
	}
	goodTimes = []string{
		"", " 1590488773254000000", " 1590488773254420001", "  1590488773254000000", " 001590488773254000000", " 1000000", " 1590000000000999999",
		" 946684800000000000", " 1690000000000000000",
	}
	badTimes = []string{
		" 0", " -0", " 5", " -1", " 999999", " -1000000", " 9223372036854775806", " 9223372036854775807", " 9223372036854775808", " 5i", " 1.5",
		" -9223372036854775806", " -9223372036854775807", " -9223372036854775808", " 2900000000000000000", " 1590488773254000000 ",
	}
	goodValues = []string{"1", "0", "-0", "1i", "0i", "-0i", "007i", "1.5", "00.50", "t", "T", "true", "True", "TRUE", "f", "F", "false", "False", "FALSE"}
	badValues  = []string{
		"1u", "18446744073709551615u", "1e5", "1E-5", "1e400", "15e-94", "1.", ".5", "+1", "0x1", "nan", "inf", "-", "--1", "tru", "9223372036854775808i",
	}
	blanks, fronts = []string{" ", " ", "  ", "   "}, []string{" ", "\t", " \t ", "\x00", "#", "\n", "\r", "# a=\"\n"}
	// Sizes of names and counts of parts that are near a limit.
	sizes  = []int{255, 256, 257, 16000, 16381, 16382, 16383, 16384, 16385, 31990, 31995, 32000, 65520, 65525, 65530, 262120, 262130}
	counts = []int{8, 9, 28, 29, 30, 99, 100, 101, 200, 201, 300, 400, 799, 1600, 6399, 6400, 12800, 12801, 13000}
)

// A maker makes hostile texts, the same ones from the same numbers. Of a hundred atoms so many are hostile.
type maker struct {
	*rand.Rand
	hostile int
	text    []byte
}

func (m *maker) is(percent int) bool { return m.Intn(100) < percent }

func (m *maker) one(words []string) string { return words[m.Intn(len(words))] }

// either gives one of some words, or, as often as the text is hostile, one of others.
func (m *maker) either(good, bad []string) string {
	if m.is(m.hostile) {
		return m.one(bad)
	}
	return m.one(good)
}

func (m *maker) put(words ...string) {
	for _, word := range words {
		m.text = append(m.text, word...)
	}
}

// atoms puts up to so many atoms, with those of a kind of name.
func (m *maker) atoms(most int, own []string) {
	for left := 1 + m.Intn(most); left > 0; left-- {
		m.put(m.either([][]string{letters, marks, own}[m.Intn(3)], hostileAtoms))
	}
}

// name puts a name, with atoms of its kind.
func (m *maker) name(own []string) {
	switch {
	case m.is(30):
		m.put(m.one(letters[:5]))
	case m.is(10):
		m.put(m.either(nearNames, takenNames))
	default:
		m.atoms(5, own)
	}
}

// number puts an integer, or a float without an exponent.
func (m *maker) number() {
	digits := func(most int) string {
		text := make([]byte, 1+m.Intn(most))
		for at := range text {
			text[at] = byte('0' + m.Intn(10))
		}
		return string(text)
	}
	m.put(m.one([]string{"", "-"}))
	switch m.Intn(40) {
	case 0:
		m.put(strings.Repeat("9", 305+m.Intn(6)))
	case 1:
		m.put("0.", strings.Repeat("0", m.Intn(400)), digits(20))
	case 2, 3, 4, 5, 6, 7, 8, 9:
		m.put(digits(18), "i")
	case 10, 11, 12, 13, 14, 15, 16, 17:
		m.put(digits(30))
	default:
		m.put(digits(20), ".", digits(20))
	}
}

func (m *maker) value() {
	switch {
	case m.is(35):
		m.put(m.either(goodValues, badValues))
	case m.is(50):
		m.number()
	default:
		m.put(`"`)
		if m.is(80) {
			m.atoms(6, ofString)
		}
		m.put(`"`)
	}
}

// line puts a line.
func (m *maker) line() {
	if m.is(m.hostile / 3) {
		m.put(m.one(fronts))
	}
	m.name(ofMeasurement)
	for left := m.Intn(4); left > 0; left-- {
		m.put(",")
		m.name(ofTag)
		m.put("=")
		m.name(ofTag)
	}
	m.put(m.one(blanks))
	m.name(ofFieldKey)
	m.put("=")
	m.value()
	for left := m.Intn(6) - 3; left > 0; left-- {
		m.put(",")
		m.name(ofFieldKey)
		m.put("=")
		m.value()
	}
	m.put(m.either(goodTimes, badTimes))
}

// The letters of short names: all that mean nothing to anyone, so that a series has room for more than 12,800 tags.
var nameLetters = strings.Map(func(letter rune) rune {
	if strings.ContainsRune("\t\n\r \"#,=\\", letter) {
		return -1
	}
	return letter
}, string(ascii()))

func ascii() (letters []rune) {
	for letter := rune(1); letter < 127; letter++ {
		letters = append(letters, letter)
	}
	return letters
}

// many gives so many parts with names of two letters in the place of an @, and a comma between two parts.
func many(count int, form string) string {
	parts, size := make([]string, count), len(nameLetters)
	for at := range parts {
		parts[at] = strings.Replace(form, "@", string([]byte{nameLetters[at/size], nameLetters[at%size]}), 1)
	}
	return strings.Join(parts, ",")
}

// large puts a line that is near a limit of a length or of a count.
func (m *maker) large() {
	long := strings.Repeat(m.one([]string{"x", "x", `\ `, `\,`, "é"}), 70000)
	long = long[:min(sizes[m.Intn(len(sizes))]+m.Intn(3)-1, len(long))]
	long = strings.ToValidUTF8(strings.TrimRight(long, `\`), "")
	count, end := counts[m.Intn(len(counts))], " f=1 1590488773254000000"
	m.put([]string{
		"m" + long + end, "m,t=" + long + end, "m," + long + "=v" + end, "m " + long + "x=1", `m s="` + long + long + `"`, "m,a=" + long + "x,b=" + long + end,
		"m," + many(count, "@=v") + end, "m,a=1," + many(count, "@=v") + end, "m " + many(count, "@=1i"), "m,t=v " + many(count, "@=t"),
		"m,a=" + strings.Repeat("v", 16384) + ",b=" + strings.Repeat("v", 15605+m.Intn(10)) + end,
		`m s="` + strings.Repeat("x", 262110+m.Intn(10)) + `"`,
	}[m.Intn(12)])
}

// mutate puts other bytes in the place of some.
func (m *maker) mutate() {
	for left := 1 + m.Intn(2); left > 0; left-- {
		at := m.Intn(len(m.text) + 1)
		rest := string(m.text[at:])
		m.text = m.text[:at]
		m.put(m.one([]string{m.one(hostileAtoms), m.one(letters), ""}), rest[min(m.Intn(3), len(rest)):])
	}
}

// next gives a hostile text. It is valid until the next one.
func (m *maker) next() []byte {
	m.text, m.hostile = m.text[:0], [...]int{0, 0, 0, 2, 2, 20}[m.Intn(6)]
	switch {
	case m.Intn(400) == 0:
		m.large()
	case m.is(8):
		m.put(m.filled()...)
	default:
		m.line()
		if m.is(12) {
			m.mutate()
		}
	}
	return m.text
}

// The letters of short words, and the texts that these are put into.
const shortLetters = "m,= \"\\1\x00\t\n"

var templates = [][2]string{
	{"", " f=1"}, {"m,", " f=1"}, {"m,", "=v f=1"}, {"m,t=", " f=1"}, {"m ", ""}, {"m ", "=1"}, {"m f=", ""}, {`m s="`, `"`}, {"m f=1", ""},
	{"m,t=v f=1,", "=2i 1000000"},
}

// filled gives the parts of a template with a random word of at most six letters.
func (m *maker) filled() []string {
	word := make([]byte, m.Intn(7))
	for at := range word {
		word[at] = shortLetters[m.Intn(len(shortLetters))]
	}
	template := templates[m.Intn(len(templates))]
	return []string{template[0], string(word), template[1]}
}

// eachFilled calls a function with a template that holds each word of at most so many letters.
func eachFilled(template [2]string, most int, do func(text []byte)) {
	eachWord([]byte(template[0]), most, func(text []byte) { do(append(text, template[1]...)) })
}

func eachWord(front []byte, most int, do func(text []byte)) {
	do(append([]byte(nil), front...))
	if most == 0 {
		return
	}
	for at := range shortLetters {
		eachWord(append(front, shortLetters[at]), most-1, do)
	}
}

func min(a, b int) int {
	if a < b {
		return a
	}
	return b
}
