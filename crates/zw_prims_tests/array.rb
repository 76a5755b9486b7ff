# Writes the tables of src/array_table.rt: what Ruby answers to methods of Array, where the language says what Ruby does.
# A sum outside 64 bits is the language's own RangeError.
I64 = (-2**63..2**63 - 1)

def told(value)
  return '! RangeError: integer out of range' if value.is_a?(Integer) && !I64.include?(value)
  value.inspect
end

def number(n)
  { 2**63 - 1 => 'i64::MAX', -2**63 => 'i64::MIN' }.fetch(n, n.to_s)
end

def item(value)
  case value
  when nil then 'Nil'
  when true then 'True'
  when false then 'False'
  when Integer then "Int(#{number(value)})"
  when String then "Text(#{value.inspect})"
  when Symbol then "Symbol(#{value.to_s.inspect})"
  when Array then "Numbers(&[#{value.map { |n| number(n) }.join(', ')}])"
  end
end

def list(values)
  return 'MIXED' if values.equal?(MIXED)

  "&[#{values.map { |v| item(v) }.join(', ')}]"
end

def row(name, receiver, *args)
  wanted = told(receiver.public_send(name, *args))
  puts "    (#{name.inspect}, #{list(receiver)}, #{list(args)}, #{wanted.inspect}),"
end

MIXED = [1, nil, 'a', :a, true, [1, 2], 1, false, 'a', nil, [1, 2], [2, 1], [], :b]
LISTS = [[], [nil], [7], [1, 2, 3], ['a', :a, nil, true], MIXED]

case ARGV[0]
when 'alone'
  %w[size length empty? first last reverse compact uniq].each { |n| LISTS.each { |l| row(n, l) } }
  row('uniq', [3, 1, 3, 2, 1])
  row('uniq', [[1], [2], [1]])
when 'places'
  [-9, -4, -3, -1, 0, 1, 2, 3, 9, 2**63 - 1, -2**63].each { |i| [[], [1, 2, 3]].each { |l| row('[]', l, i) } }
  %w[take drop].each { |n| [0, 1, 2, 3, 4, 9].each { |i| [[], [1, nil, 3]].each { |l| row(n, l, i) } } }
when 'found'
  values = [nil, true, false, 1, 2, 'a', '', :a, :b, [1, 2], [2, 1], [1], []]
  %w[include? index].each { |n| values.each { |v| row(n, MIXED, v) } }
  %w[include? index].each { |n| row(n, [], 1) }
when 'both'
  lists = [[], [1], [2, 2, 1], [nil, 'a'], [:a, 'a', [1, 2]]]
  %w[+ -].each { |n| lists.each { |l| lists.each { |m| row(n, l, m) if m.all?(Integer) } } }
  row('-', [1, 2, 1, 3, 1], [1])
  row('-', [[1, 2], 3], [[1, 2]].first)
when 'sums'
  [[], [1], [1, 2, 3], [-1, 1], [2**63 - 1, 1], [2**63 - 1, 1, -1], [-2**63, -1], [-2**63, -1, 1],
   [2**63 - 1, 2**63 - 1, -2**63, -2**63], [2**63 - 1, -2**63]].each { |l| row('sum', l) }
when 'joined'
  lists = [[], [nil], ['a'], ['a', 'b', 'c'], [1, nil, :b, true, false, -3], ['', ''], ['é', 'ß']]
  lists.each { |l| row('join', l) }
  lists.each { |l| ['', ', ', 'é'].each { |s| row('join', l, s) } }
end
