class Product
  def self.price
    40
  end
  def self.stock
    3
  end
end
