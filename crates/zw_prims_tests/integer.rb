# Writes the tables of src/integer_table.rt: what Ruby answers to methods of Integer, where the language says what Ruby does.
# A result outside 64 bits is the language's own RangeError.
I64 = (-2**63..2**63 - 1)
EDGES = [0, 1, -1, 2, -2, 3, -3, 7, -7, 10, 2**63 - 1, -2**63]

def told(value)
  return '! RangeError: integer out of range' if value.is_a?(Integer) && !I64.include?(value)
  return '! RangeError: integer out of range' if value.is_a?(Array) && value.any? { |v| !I64.include?(v) }
  value.inspect
rescue ZeroDivisionError => e
  "! ZeroDivisionError: #{e.message}"
end

def answer
  told(yield)
rescue ZeroDivisionError => e
  "! ZeroDivisionError: #{e.message}"
end

def number(n)
  { 2**63 - 1 => 'i64::MAX', -2**63 => 'i64::MIN' }.fetch(n, n.to_s)
end

def row(name, receiver, args)
  wanted = answer { receiver.public_send(name, *args) }
  list = args.map { |a| number(a) }.join(', ')
  puts "    (#{name.inspect}, #{number(receiver)}, &[#{list}], #{wanted.inspect}),"
end

%w[-@ abs zero? positive? negative? even? odd? succ pred to_i].each { |n| EDGES.each { |a| row(n, a, []) } } if ARGV[0] == 'alone'
pairs = [0, 3, -3, 7, -7, -1, 2**63 - 1, -2**63]
%w[+ - * / % divmod].each { |n| pairs.each { |a| pairs.each { |b| row(n, a, [b]) } } } if ARGV[0] == 'arithmetic'
few = [0, -3, 3, 2**63 - 1, -2**63]
%w[< <= > >= <=>].each { |n| few.each { |a| few.each { |b| row(n, a, [b]) } } } if ARGV[0] == 'order'
if ARGV[0] == 'bounds'
  [[5, 1, 9], [1, 1, 9], [9, 1, 9], [0, 1, 9], [10, 1, 9], [3, 3, 3], [-5, -9, -1], [2**63 - 1, -2**63, 0]].each do |n, a, b|
    row('between?', n, [a, b])
    row('clamp', n, [a, b])
  end
  row('between?', 5, [9, 1])
end
