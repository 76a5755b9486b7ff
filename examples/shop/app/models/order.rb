class Order
  def self.limit
    12
  end
end
