# Writes the tables of src/kernel_table.rt and src/exception_table.rt: what Ruby answers to methods of Kernel and
# Exception, where the language says what Ruby does.
VALUES = [nil, true, false, 0, 1, -7, '', 'a', 'a b', :a, :b?, [], [1], [1, 2], Object, Kernel, Integer, NameError]
CLASSES = [Object, NilClass, TrueClass, Integer, String, Symbol, Array, Class, Module]
EXCEPTIONS = [Exception, StandardError, ArgumentError, NameError, NoMethodError, FrozenError, ZeroDivisionError]
MESSAGES = ['', 'a', 'a b', '"', "two\nlines", 'été']

def item(value)
  case value
  when nil then 'Nil'
  when true then 'True'
  when false then 'False'
  when Integer then "Int(#{value})"
  when String then "Text(#{value.inspect})"
  when Symbol then "Symbol(#{value.to_s.inspect})"
  when Array then "Numbers(&[#{value.join(', ')}])"
  when Module then "Module(CoreClass::#{value})"
  end
end

def row(name, receiver, args, answer)
  list = args.map { |v| item(v) }.join(', ')
  puts "    (#{name.inspect}, #{item(receiver)}, &[#{list}], #{answer.inspect.inspect}),"
end

case ARGV[0]
when 'alone'
  %w[class nil? to_s inspect].each { |n| VALUES.each { |v| row(n, v, [], v.public_send(n)) } }
when 'equal'
  few = VALUES - [0, 'a b', :b?, [1, 2], Integer]
  few.each { |a| few.each { |b| puts "    (#{item(a)}, #{item(b)}, #{a == b})," } }
when 'instance'
  VALUES.each { |v| CLASSES.each { |c| puts "    (#{item(v)}, CoreClass::#{c}, #{v.instance_of?(c)})," } }
when 'exceptions'
  EXCEPTIONS.each do |c|
    %w[message to_s inspect].each do |n|
      puts "    (#{n.inspect}, CoreClass::#{c}, None, #{c.new.public_send(n).inspect.inspect}),"
      MESSAGES.each { |m| puts "    (#{n.inspect}, CoreClass::#{c}, Some(#{m.inspect}), #{c.new(m).public_send(n).inspect.inspect})," }
    end
  end
end
