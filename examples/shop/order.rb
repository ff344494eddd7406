class Order < Priced
  include Item

  CURRENCY = Item::CURRENCY
  RATE = Itm::RATE
end
