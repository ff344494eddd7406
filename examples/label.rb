# typed: true
class Label
  extend T::Sig

  sig { params(text: T.nilable(String)).returns(Integer) }
  def width(text)
    text.length
    return "none" if text.nil?
    text.length + 2
  end
end

Label.new.width(12)
