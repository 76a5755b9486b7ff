# Writes the tables of src/string_table.rt: what Ruby answers to methods of String, where the language says what Ruby does.
# Letters are those of ASCII, and a separator of one space is no pattern of its own: it is passed as a regular expression.
TEXTS = ['', 'a', 'ab', 'Hello World', 'ÉCOLE été', '日本語', "a\u{1d11e}b", 'mIxEd_9']

def told(value)
  case value
  when Array then "[#{value.map { |v| told(v) }.join(', ')}]"
  when String
    text = value.gsub(/["\\]/) { |c| "\\#{c}" }.gsub("\n", '\n').gsub("\t", '\t').gsub("\r", '\r').gsub(/#(?=[{$@])/, '\#')
    %("#{text.gsub(/[\u0000-\u001f\u007f]/) { |c| "\\u{#{c.ord.to_s(16)}}" }}")
  else value.inspect
  end
end

# as Rust writes it
def quoted(text)
  escaped = text.gsub(/["\\]/) { |c| "\\#{c}" }.gsub("\n", '\n').gsub("\t", '\t').gsub("\r", '\r')
  %("#{escaped.gsub(/[\u0000-\u001f\u007f\u00a0\u3000]/) { |c| "\\u{#{c.ord.to_s(16)}}" }}")
end

def row(*cells, answer)
  list = cells.map { |c| c.is_a?(String) ? quoted(c) : c.to_s.sub((2**63 - 1).to_s, 'i64::MAX').sub((-2**63).to_s, 'i64::MIN') }
  puts "    (#{list.join(', ')}, #{quoted(told(answer))}),"
end

case ARGV[0]
when 'alone'
  %w[size length bytesize empty? reverse chars].each { |n| TEXTS.each { |t| row(n, t, t.public_send(n)) } }
  %w[upcase downcase capitalize].each { |n| TEXTS.each { |t| row(n, t, t.public_send(n, :ascii)) } }
  ['', ' ', "\0", 'a', ' a', 'a ', "\t\n\v\f\r a b \0 ", " é ", "\u00a0a", "a\u3000", "\e a"].each { |t| row('strip', t, t.strip) }
  ['', '-', '0', '12', '-12', '007', '12ab', '-3x', 'x1', '--1', '9223372036854775807', '-9223372036854775808', '0x10', '٣'].each { |t| row('to_i', t, t.to_i) }
when 'with_text'
  pairs = [['', ''], ['a', ''], ['', 'a'], ['a', 'a'], ['a', 'b'], ['ab', 'a'], ['a', 'ab'], ['é', 'z'], ['日', '日本'], ['abcabc', 'ca'], ['été', 'té']]
  %w[+ < <= > >= <=> include? start_with? end_with? delete_prefix delete_suffix].each { |n| pairs.each { |a, b| row(n, a, b, a.public_send(n, b)) } }
  row('delete_prefix', 'aab', 'a', 'aab'.delete_prefix('a'))
  row('delete_suffix', 'baa', 'a', 'baa'.delete_suffix('a'))
when 'split'
  [['', ','], ['a', ','], [',', ','], [',,', ','], ['a,b', ','], [',a', ','], ['a,', ','], ['a,,b', ','], ['a,,', ','], [',,a,,b,,', ','],
   ['aaa', 'aa'], ['a::b::c', '::'], ['a:::b', '::'], [' a  b ', ' '], ['日本語', '本'], ['éàé', 'à'], ['abc', 'abcd']].each do |t, s|
    row(t, s, t.split(Regexp.new(Regexp.escape(s))))
  end
when 'with_number'
  places = [0, 1, 2, 3, -1, -2, -3, -4, 2**63 - 1, -2**63]
  ['', 'ab', '日本語'].each { |t| places.each { |i| row('[]', t, i, i.abs < 2**62 ? t[i] : nil) } }
  %w[ljust rjust].each { |n| ['', 'ab', '日本語'].each { |t| [-1, 0, 2, 3, 5].each { |i| row(n, t, i, t.public_send(n, i)) } } }
  ['', 'ab', '日'].each { |t| [0, 1, 3].each { |i| row('*', t, i, t * i) } }
when 'parts'
  ['', 'abc', '日本語'].each { |t| [0, 1, 3, 4, -1, -3, -4].each { |i| [0, 1, 2, 9, -1].each { |c| row(t, i, c, t[i, c]) } } }
end
