# Writes the table of src/symbol_table.rt: what Ruby answers to `<=>` of Symbol.
[['', ''], ['a', 'b'], ['b', 'a'], ['ab', 'a'], ['é', 'z'], ['Z', 'a'], ["\u{1d11e}", "\u{ff5e}"]].each do |one, other|
  puts "    (#{one.inspect}, #{other.inspect}, #{(one.to_sym <=> other.to_sym).to_s.inspect}),"
end
